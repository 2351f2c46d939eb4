# A write of the origin beside a merge goes to the store: a flush of the origin makes it last there, and so the merge that is begun again.
# That a disk keeps what was flushed is how a volatile cache is defined; that a volume is stopped by a command is this project's.
disk base 128
disk cow 64
create vol 0 128 snapshot-origin base
write vol 0 65536*11
create snap 0 128 snapshot base cow P 1
write vol 5 512*aa
write vol 9 512*aa
merge snap
write vol 5 512*55
flush vol
write vol 9 512*99
stop vol lose
save base 5 1
save cow 2 2
create vol 0 128 snapshot-origin base
create snap 0 128 snapshot base cow P 1
read snap 5 1
read snap 9 1
merge snap
settle vol
finish vol
save base 5 1
save base 9 1
