# A snapshot over a fresh store: its status line, and the header and the empty area that it wrote.
# By the admin-guide page on snapshots and the format of the kernel's persistent store.
disk base 128
disk cow 64
create vol 0 128 snapshot-origin base
write vol 0 65536*11
create snap 0 128 snapshot base cow P 1
status snap
status vol
save cow 0 1
save cow 1 1
