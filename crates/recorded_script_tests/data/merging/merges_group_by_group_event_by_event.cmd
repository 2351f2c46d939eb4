# A merge of two areas, each of its events by its word: a group from the end, its area, the area before it, the next group.
# The order of the events is that of docs/DESIGN.md, merging back; the groups are those of the kernel's persistent store.
disk base 128
disk cow 64
create vol 0 128 snapshot-origin base
write vol 0 65536*11
create snap 0 128 snapshot base cow P 1
write vol 0 20480*aa
status snap
merge snap
read vol 0 1
read snap 0 1
status snap
step vol merge-group
step vol merge-read
step vol merge-write
step vol merge-read
step vol merge-write
step vol merge-read
step vol merge-write
step vol merge-read
step vol merge-write
step vol merge-read
step vol merge-write
step vol merge-read
step vol merge-write
step vol merge-read
step vol merge-write
step vol merge-read
step vol merge-write
step vol merge-flush
step vol merge-commit
step vol merge-release
status vol
step vol merge-area-read
status vol
step vol merge-group
step vol merge-read
step vol merge-write
step vol merge-read
step vol merge-write
step vol merge-read
step vol merge-write
step vol merge-read
step vol merge-write
step vol merge-read
step vol merge-write
step vol merge-read
step vol merge-write
step vol merge-read
step vol merge-write
step vol merge-read
step vol merge-write
step vol merge-read
step vol merge-write
step vol merge-read
step vol merge-write
step vol merge-read
step vol merge-write
step vol merge-read
step vol merge-write
step vol merge-read
step vol merge-write
step vol merge-read
step vol merge-write
step vol merge-read
step vol merge-write
step vol merge-read
step vol merge-write
step vol merge-read
step vol merge-write
step vol merge-read
step vol merge-write
step vol merge-read
step vol merge-write
step vol merge-read
step vol merge-write
step vol merge-read
step vol merge-write
step vol merge-read
step vol merge-write
step vol merge-read
step vol merge-write
step vol merge-read
step vol merge-write
step vol merge-read
step vol merge-write
step vol merge-read
step vol merge-write
step vol merge-read
step vol merge-write
step vol merge-read
step vol merge-write
step vol merge-read
step vol merge-write
step vol merge-read
step vol merge-write
step vol merge-read
step vol merge-write
step vol merge-read
step vol merge-write
step vol merge-flush
step vol merge-commit
step vol merge-release
status vol
