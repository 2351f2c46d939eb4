# A flush between the events of a group: the commit behind it may be lost, and the pair comes back with what was written to the store.
# That a disk keeps what was flushed is how a volatile cache is defined; that a volume is stopped by a command is this project's.
disk base 16
disk cow 16
create vol 0 16 snapshot-origin base
write vol 0 8192*11
create snap 0 16 snapshot base cow P 1
write vol 5 512*aa
merge snap
step vol merge-group
step vol merge-read
step vol merge-write
step vol merge-flush
flush vol
step vol merge-commit
step vol merge-release
write vol 5 512*cc
stop vol lose
save base 5 1
save cow 1 1
create vol 0 16 snapshot-origin base
create snap 0 16 snapshot base cow P 1
read snap 5 1
merge snap
settle vol
write vol 5 512*cc
flush vol
stop vol lose
save cow 1 1
save base 5 1
