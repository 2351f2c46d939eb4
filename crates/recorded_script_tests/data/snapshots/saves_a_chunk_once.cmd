# A second write of a chunk saves nothing more, and the snapshot still shows what it showed.
# By the admin-guide page on snapshots and the format of the kernel's persistent store.
disk base 128
disk cow 64
create vol 0 128 snapshot-origin base
write vol 0 65536*11
create snap 0 128 snapshot base cow P 1
write vol 5 512*aa
read vol 5 1
read snap 5 1
status snap
save cow 1 1
save cow 2 1
write vol 5 512*bb
status snap
read snap 5 1
