# Snapshots in chunks of several sizes beside a merge, each flushed by itself.
# That a flush of a device makes what was written to it last is the block layer's rule; that it is asked for by a command is this project's.
disk base 64
disk cow 64
disk cow4 64
create vol 0 64 snapshot-origin base
write vol 0 32768*11
create snap 0 64 snapshot base cow P 1
create s4 0 64 snapshot base cow4 P 4
write vol 5 512*aa
start vol write 9 512*bb
start s4 write 12 512*44
flush s4
flush snap
merge s4
start vol write 20 512*cc
flush vol
flush snap
settle vol
flush vol
status snap
status vol
read snap 4 8
