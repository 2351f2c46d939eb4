# A store that is full behind its first area is marked invalid at the next write, and the origin is written all the same.
# By the admin-guide page on snapshots and the format of the kernel's persistent store.
disk base 128
disk cow 35
create vol 0 128 snapshot-origin base
write vol 0 65536*11
create snap 0 128 snapshot base cow P 1
write vol 0 16384*aa
status snap
write vol 32 512*bb
status snap
read snap 0 1
read vol 32 1
save cow 0 1
