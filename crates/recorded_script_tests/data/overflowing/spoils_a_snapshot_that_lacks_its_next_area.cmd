# A store that is not full but has no room for its next area spoils its snapshot, also where it may overflow.
# By the admin-guide page on snapshots and the format of the kernel's persistent store.
disk base 128
disk cow 34
create vol 0 128 snapshot-origin base
write vol 0 65536*11
create snap 0 128 snapshot base cow PO 1
write snap 0 15872*77
status snap
write snap 31 512*77
status snap
