# The store of a merge is flushed, and then the origin fails: what was written to the store lasts, what was written to the origin does not.
# That a disk keeps what was flushed is how a volatile cache is defined; that a volume is stopped by a command is this project's.
disk base 128
disk cow 64
create fb 0 128 flakey base 0 5 1 1 error_writes
create vol 0 128 snapshot-origin fb
write vol 0 65536*11
create snap 0 128 snapshot fb cow P 1
write vol 5 512*aa
flush vol
merge snap
write vol 5 512*55
write vol 20 512*bb
tick 5
flush vol
read vol 5 1
tick 1
stop vol lose
save base 20 1
save cow 2 1
create vol 0 128 snapshot-origin fb
create snap 0 128 snapshot fb cow P 1
read snap 5 1
merge snap
settle vol
finish vol
save base 5 1
