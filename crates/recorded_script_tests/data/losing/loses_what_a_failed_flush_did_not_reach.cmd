# A flush that the store of a merge fails is answered before the origin is flushed; one that the origin fails has flushed the store.
# That a disk keeps what was flushed is how a volatile cache is defined; that a volume is stopped by a command is this project's.
disk base 128
disk cow 64
create fb 0 128 flakey base 0 8 1 1 error_writes
create fc 0 64 flakey cow 0 5 4 1 error_writes
create vol 0 128 snapshot-origin fb
write vol 0 65536*11
create snap 0 128 snapshot fb fc P 1
write vol 5 512*aa
flush vol
merge snap
write vol 5 512*55
write vol 20 512*bb
tick 5
flush vol
status vol
read vol 5 1
stop vol lose
save base 20 1
save cow 2 1
create vol 0 128 snapshot-origin fb
tick 4
create snap 0 128 snapshot fb fc P 1
read snap 5 1
