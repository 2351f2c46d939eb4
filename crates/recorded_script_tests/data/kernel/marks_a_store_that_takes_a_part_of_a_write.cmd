# A write over four chunks where the store has room for two: two pairs stand, and the snapshot is spoiled.
# Status lines and raw bytes as recorded from the Linux kernel.
disk base 128
disk cow 4
create vol 0 128 snapshot-origin base
write vol 0 65536*11
create snap 0 128 snapshot base cow P 1
write vol 10 2048*aa
status snap
save cow 1 1
read vol 9 6
