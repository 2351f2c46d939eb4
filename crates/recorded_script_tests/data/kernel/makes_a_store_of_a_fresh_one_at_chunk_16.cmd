# A fresh store at chunks of sixteen sectors: its header, its empty area, and all other sectors as they were.
# Status lines and raw bytes as recorded from the Linux kernel.
disk base 64
disk cow 400
create vol 0 64 snapshot-origin base
write vol 0 32768*11
load cow 0 4*00 508*ee
load cow 1 204288*ee
create snap 0 64 snapshot base cow P 16
status snap
save cow 0 16
save cow 16 16
save cow 32 16
save cow 384 16
