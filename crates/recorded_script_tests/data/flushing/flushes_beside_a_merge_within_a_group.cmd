# A flush beside a merge that stands within a group does no event of it; a write that is held for the group is still held.
# That a flush of a device makes what was written to it last is the block layer's rule; that it is asked for by a command is this project's.
disk base 128
disk cow 64
create vol 0 128 snapshot-origin base
write vol 0 65536*11
create snap 0 128 snapshot base cow P 1
write vol 5 512*aa
write vol 6 512*aa
write vol 9 512*aa
merge snap
flush vol
step vol merge-group
step vol merge-read
flush vol
step vol merge-write
start vol write 9 512*99
flush vol
step vol merge-group
status vol
step vol merge-flush
flush vol
step vol merge-commit
flush vol
step vol merge-release
read vol 9 1
settle vol
flush vol
status vol
finish vol
flush vol
save base 5 5
