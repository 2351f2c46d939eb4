# A flush of a snapshot makes the writes to it last, and none to the origin; a flush of the origin none to the snapshot.
# That a disk keeps what was flushed is how a volatile cache is defined; that a volume is stopped by a command is this project's.
disk base 128
disk cow 64
create vol 0 128 snapshot-origin base
write vol 0 65536*11
create snap 0 128 snapshot base cow P 1
write snap 9 512*77
write vol 20 512*aa
flush snap
write snap 9 512*78
write vol 21 512*bb
flush vol
write snap 10 512*79
stop vol lose
save base 20 2
create vol 0 128 snapshot-origin base
create snap 0 128 snapshot base cow P 1
read snap 9 2
read snap 20 2
write vol 22 512*cc
flush snap
stop vol lose
save base 22 1
create vol 0 128 snapshot-origin base
create snap 0 128 snapshot base cow P 1
read snap 22 1
