# A store of five one-sector chunks is filled, and marked invalid at the write after.
# Status lines and raw bytes as recorded from the Linux kernel.
disk base 24
disk cow 5
create vol 0 24 snapshot-origin base
write vol 0 12288*11
create snap 0 24 snapshot base cow P 1
write vol 0 512*aa
status snap
write vol 1 512*aa
status snap
write vol 2 512*aa
status snap
save cow 0 1
write vol 3 512*aa
status snap
save cow 0 1
save cow 1 1
read snap 0 1
read snap 9 1
read vol 3 2
write vol 4 512*aa
table snap
