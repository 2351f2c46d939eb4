# A store with a header and an area and no room for a chunk is taken, and spoiled by the first write.
# Status lines and raw bytes as recorded from the Linux kernel.
disk base 128
disk cow 16
create vol 0 128 snapshot-origin base
write vol 0 65536*11
create snap 0 128 snapshot base cow P 8
status snap
write vol 0 512*aa
status snap
save cow 0 8
save cow 8 8
