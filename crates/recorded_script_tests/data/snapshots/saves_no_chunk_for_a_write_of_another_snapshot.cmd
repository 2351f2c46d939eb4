# A write to one snapshot saves nothing for another one; a write of the origin does.
# By the admin-guide page on snapshots and the format of the kernel's persistent store.
disk base 128
disk cow 64
create vol 0 128 snapshot-origin base
write vol 0 65536*11
create snap 0 128 snapshot base cow P 1
disk cow2 64
create s2 0 128 snapshot base cow2 P 1
write snap 9 512*77
write vol 5 512*aa
status s2
