# A spoiled snapshot's mark could not be written, so its header still says valid. A volume that is stopped forgets that its store
# is stale: the store is attached again, and shows changed data. `remove` remembers it.
# By the admin-guide pages on snapshots and dm-flakey; the commands are this project's.
disk base 128
disk cow 64
create vol 0 128 snapshot-origin base
write vol 0 65536*11
create fl 0 64 flakey cow 0 1 1 1 error_writes
create snap 0 128 snapshot base fl P 1
tick 1
write vol 5 512*aa
status snap
tick 1
save cow 0 1
stop vol
table fl
create vol 0 128 snapshot-origin base
create snap 0 128 snapshot base fl P 1
read snap 5 1
tick 1
write vol 6 512*bb
status snap
tick 1
remove snap
create snap 0 128 snapshot base fl P 1
stop vol
create vol 0 128 snapshot-origin base
create snap 0 128 snapshot base fl P 1
