# A device that fails a flush: Io, of the origin or of a snapshot, which is lost by it no more than the origin is.
# That a flush of a device makes what was written to it last is the block layer's rule; that it is asked for by a command is this project's.
disk base 64
disk cow 32
create fb 0 64 flakey base 0 3 1
create fc 0 32 flakey cow 0 4 1 1 error_writes
create vol 0 64 snapshot-origin fb
write vol 0 32768*11
create snap 0 64 snapshot fb fc P 1
write snap 9 512*77
flush vol
flush snap
tick 3
flush vol
flush snap
status snap
tick 1
flush vol
flush snap
status snap
read snap 9 1
tick 1
flush snap
write vol 20 512*aa
status snap
read snap 20 1
