# A fresh store at chunks of one sector: its header, its empty area, and all other sectors as they were.
# Status lines and raw bytes as recorded from the Linux kernel.
disk base 64
disk cow 40
create vol 0 64 snapshot-origin base
write vol 0 32768*11
load cow 0 4*00 508*ee
load cow 1 19968*ee
create snap 0 64 snapshot base cow P 1
status snap
save cow 0 1
save cow 1 1
save cow 2 1
save cow 24 1
