# A flush of one snapshot leaves what was written to another to be lost.
# That a disk keeps what was flushed is how a volatile cache is defined; that a volume is stopped by a command is this project's.
disk base 128
disk cow 64
create vol 0 128 snapshot-origin base
write vol 0 65536*11
create snap 0 128 snapshot base cow P 1
disk cow2 64
create s2 0 128 snapshot base cow2 P 1
write snap 9 512*77
write s2 9 512*88
flush s2
write snap 10 512*79
write s2 10 512*89
stop vol lose
create vol 0 128 snapshot-origin base
create snap 0 128 snapshot base cow P 1
create s2 0 128 snapshot base cow2 P 1
read snap 9 2
read s2 9 2
