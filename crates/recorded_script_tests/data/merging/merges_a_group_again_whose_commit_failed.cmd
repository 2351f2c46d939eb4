# A merge stops where its store's area can't be written, and copies the same group again once it is resumed; the first chunk of
# the origin, which has no pair, stays. By the admin-guide pages on snapshots and dm-flakey; the commands are this project's.
disk base 128
disk cow 64
create vol 0 128 snapshot-origin base
write vol 0 65536*11
create fl 0 64 flakey cow 0 1 1 1 error_writes
create snap 0 128 snapshot base fl P 1
write vol 5 512*aa
merge snap
step vol merge-group
step vol merge-read
step vol merge-write
step vol merge-flush
save base 5 1
tick 1
step vol merge-commit
step vol merge-commit
step vol merge-group
status vol
finish vol
save cow 1 1
read vol 5 1
tick 1
resume vol
status vol
settle vol
status vol
finish vol
save base 0 128
save cow 1 1
