# While a merge is begun, the origin's flush goes to the store of it first, and ends there where that fails; the merge does not fail by it.
# That a flush of a device makes what was written to it last is the block layer's rule; that it is asked for by a command is this project's.
disk base 64
disk cow 32
create du 0 32 dust cow 0 512
create fc 0 32 flakey du 0 2 1 1 error_writes
create vol 0 64 snapshot-origin base
write vol 0 32768*11
create snap 0 64 snapshot base fc P 1
write vol 5 512*aa
merge snap
tick 2
flush vol
status vol
start vol read 5 1
flush vol
tick 1
flush vol
settle vol
status vol
tick 2
flush vol
finish vol
flush vol
save base 5 1
