# A fresh store at chunks of eight sectors: its header, its empty area, and all other sectors as they were.
# Status lines and raw bytes as recorded from the Linux kernel.
disk base 64
disk cow 200
create vol 0 64 snapshot-origin base
write vol 0 32768*11
load cow 0 4*00 508*ee
load cow 1 101888*ee
create snap 0 64 snapshot base cow P 8
status snap
save cow 0 8
save cow 8 8
save cow 16 8
save cow 192 8
