# What is written of copies counts as flushed once their snapshot's store was flushed; a flush settles the rest.
# That a flush of a device makes what was written to it last is the block layer's rule; that it is asked for by a command is this project's.
disk base 128
disk cow 64
create vol 0 128 snapshot-origin base
write vol 0 65536*11
create snap 0 128 snapshot base cow P 1
start vol write 5 512*aa
step vol copy-read 1
step vol copy-write 1
flush snap
status snap
start vol write 6 512*bb
step vol copy-read 2
step vol copy-write 2
step vol flush-store snap
step vol write-area snap
step vol publish 2
flush vol
step vol flush-store snap
read snap 5 2
