# A write to a snapshot that was not flushed is lost; the copy before it is not.
# That a disk keeps what was flushed is how a volatile cache is defined; that a volume is stopped by a command is this project's.
disk base 128
disk cow 64
create vol 0 128 snapshot-origin base
write vol 0 65536*11
create snap 0 128 snapshot base cow P 1
write snap 9 512*77
stop vol lose
create vol 0 128 snapshot-origin base
create snap 0 128 snapshot base cow P 1
read snap 9 1
status snap
