# A loss forgets which marks were not written, as a plain stop does: the store is loaded as its bytes say.
# That a disk keeps what was flushed is how a volatile cache is defined; that a volume is stopped by a command is this project's.
disk base 32
disk cow 16
create vol 0 32 snapshot-origin base
write vol 0 16384*11
create fl 0 16 flakey cow 0 2 1 1 error_writes
create snap 0 32 snapshot base fl P 1
write vol 3 512*aa
tick 2
write vol 4 512*bb
status snap
stop vol lose
tick 1
create vol 0 32 snapshot-origin base
create snap 0 32 snapshot base fl P 1
read snap 3 2
read vol 3 2
