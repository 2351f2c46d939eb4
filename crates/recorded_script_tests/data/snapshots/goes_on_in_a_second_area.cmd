# A store whose first area is full has a second one of zeros, and the next pair stands in it.
# By the admin-guide page on snapshots and the format of the kernel's persistent store.
disk base 128
disk cow 64
create vol 0 128 snapshot-origin base
write vol 0 65536*11
create snap 0 128 snapshot base cow P 1
write vol 0 16384*aa
status snap
save cow 34 1
write vol 32 512*aa
status snap
save cow 34 1
