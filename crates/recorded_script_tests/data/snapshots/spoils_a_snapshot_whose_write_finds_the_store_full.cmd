# A write to a snapshot whose store is full is refused, and spoils it.
# By the admin-guide page on snapshots and the format of the kernel's persistent store.
disk base 128
disk cow 3
create vol 0 128 snapshot-origin base
write vol 0 65536*11
create snap 0 128 snapshot base cow P 1
write snap 0 512*77
status snap
write snap 1 512*77
status snap
