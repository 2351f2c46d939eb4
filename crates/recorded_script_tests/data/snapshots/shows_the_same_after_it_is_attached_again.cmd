# A snapshot that is removed and made again over its store shows the same, and goes on with its pairs.
# By the admin-guide page on snapshots and the format of the kernel's persistent store.
disk base 128
disk cow 64
create vol 0 128 snapshot-origin base
write vol 0 65536*11
create snap 0 128 snapshot base cow P 1
write vol 5 512*aa
remove snap
create snap 0 128 snapshot base cow P 1
status snap
read snap 5 1
write vol 6 512*aa
save cow 1 1
