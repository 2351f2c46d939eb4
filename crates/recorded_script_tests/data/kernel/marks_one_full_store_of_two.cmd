# Of two snapshots the one whose store is full is spoiled, and the other shows what it showed.
# Status lines and raw bytes as recorded from the Linux kernel.
disk base 128
disk cow 5
create vol 0 128 snapshot-origin base
write vol 0 65536*11
create snap 0 128 snapshot base cow P 1
disk cow2 40
create snap2 0 128 snapshot base cow2 P 1
write vol 0 512*aa
write vol 1 512*aa
write vol 2 512*aa
write vol 3 512*aa
status snap
status snap2
read snap2 0 5
read snap 0 5
