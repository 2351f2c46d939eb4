# One pair short of a full area, a full area, and one and two pairs over, at chunks of one sector.
# Status lines and raw bytes as recorded from the Linux kernel.
disk base 35
disk cow 47
create vol 0 35 snapshot-origin base
write vol 0 17920*11
load cow 2 23040*ee
create snap 0 35 snapshot base cow P 1
write vol 0 512*aa
write vol 1 512*aa
write vol 2 512*aa
write vol 3 512*aa
write vol 4 512*aa
write vol 5 512*aa
write vol 6 512*aa
write vol 7 512*aa
write vol 8 512*aa
write vol 9 512*aa
write vol 10 512*aa
write vol 11 512*aa
write vol 12 512*aa
write vol 13 512*aa
write vol 14 512*aa
write vol 15 512*aa
write vol 16 512*aa
write vol 17 512*aa
write vol 18 512*aa
write vol 19 512*aa
write vol 20 512*aa
write vol 21 512*aa
write vol 22 512*aa
write vol 23 512*aa
write vol 24 512*aa
write vol 25 512*aa
write vol 26 512*aa
write vol 27 512*aa
write vol 28 512*aa
write vol 29 512*aa
write vol 30 512*aa
status snap
save cow 34 1
write vol 31 512*aa
status snap
save cow 1 1
save cow 34 1
save cow 35 1
write vol 32 512*aa
status snap
save cow 34 1
write vol 33 512*aa
status snap
save cow 34 1
save cow 1 1
save cow 0 1
save cow 35 1
save cow 37 1
