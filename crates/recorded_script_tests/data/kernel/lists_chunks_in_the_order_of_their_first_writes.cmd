# Pairs stand in the order of first writes; a second write of a chunk adds none.
# Status lines and raw bytes as recorded from the Linux kernel.
disk base 320
disk cow 200
create vol 0 320 snapshot-origin base
write vol 0 163840*11
create snap 0 320 snapshot base cow P 8
write vol 24 512*aa
status snap
save cow 8 8
save cow 16 8
write vol 24 512*aa
status snap
save cow 8 8
save cow 16 8
write vol 0 512*aa
status snap
save cow 8 8
save cow 0 8
read snap 0 32
