# The pair that fills the first area takes the second one with it.
# By the admin-guide page on snapshots and the format of the kernel's persistent store.
disk base 128
disk cow 64
create vol 0 128 snapshot-origin base
write vol 0 65536*11
create snap 0 128 snapshot base cow P 1
write vol 0 15872*aa
status snap
write vol 31 512*aa
status snap
