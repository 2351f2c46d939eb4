# A store whose first area is full is attached again with the same numbers of sectors.
# By the admin-guide page on snapshots and the format of the kernel's persistent store.
disk base 128
disk cow 64
create vol 0 128 snapshot-origin base
write vol 0 65536*11
create snap 0 128 snapshot base cow P 1
write vol 0 16384*aa
status snap
remove snap
create snap 0 128 snapshot base cow P 1
status snap
