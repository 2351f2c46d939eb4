# The last chunk of an origin that is no whole number of chunks is saved and read as short as it is.
# By the admin-guide page on snapshots and the format of the kernel's persistent store.
disk base 130
disk cow 64
create vol 0 130 snapshot-origin base
write vol 0 66560*11
create snap 0 130 snapshot base cow P 4
write vol 129 512*aa
status snap
save cow 4 1
save cow 8 4
read snap 128 2
read vol 128 2
read snap 130 1
