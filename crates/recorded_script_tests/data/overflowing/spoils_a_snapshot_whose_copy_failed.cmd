# A device that fails in a copy spoils the snapshot, also where its store may overflow; the mark of that was not written either.
# By the admin-guide pages on snapshots and dm-flakey.
disk base 128
disk cow 4
create fl 0 4 flakey cow 0 1 1 1 error_writes
create vol 0 128 snapshot-origin base
write vol 0 65536*11
create snap 0 128 snapshot base fl PO 1
write snap 0 512*77
tick 1
write snap 1 512*78
status snap
tick 1
status snap
remove snap
create snap 0 128 snapshot base fl PO 1
