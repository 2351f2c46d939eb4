# Once a merge has come to its end, a flush of the origin flushes its store first: no pair comes back, and the write behind it lasts.
# That a disk keeps what was flushed is how a volatile cache is defined; that a volume is stopped by a command is this project's.
disk base 128
disk cow 64
create vol 0 128 snapshot-origin base
write vol 0 65536*11
create snap 0 128 snapshot base cow P 1
write vol 5 512*aa
merge snap
settle vol
write vol 5 512*cc
flush vol
stop vol lose
save cow 1 1
save base 5 1
create vol 0 128 snapshot-origin base
create snap 0 128 snapshot base cow P 1
status snap
read snap 5 1
