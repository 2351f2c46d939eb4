# That a store overflowed stands nowhere in it: taken away or stopped, and attached again, its snapshot takes writes again.
# By the admin-guide page on snapshots and the format of the kernel's persistent store.
disk base 128
disk cow 4
create vol 0 128 snapshot-origin base
write vol 0 65536*11
create snap 0 128 snapshot base cow PO 1
write snap 0 1024*77
write snap 2 512*77
remove snap
create snap 0 128 snapshot base cow PO 1
status snap
write snap 0 512*78
read snap 0 2
write snap 2 512*78
status snap
stop vol
create vol 0 128 snapshot-origin base
create snap 0 128 snapshot base cow PO 1 0
table snap
status snap
read snap 0 2
