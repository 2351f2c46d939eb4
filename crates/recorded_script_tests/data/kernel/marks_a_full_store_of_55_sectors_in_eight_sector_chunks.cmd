# A store of 55 sectors has room for four chunks of eight sectors beside its header and area.
# Status lines and raw bytes as recorded from the Linux kernel.
disk base 192
disk cow 55
create vol 0 192 snapshot-origin base
write vol 0 98304*11
create snap 0 192 snapshot base cow P 8
write vol 0 512*aa
write vol 8 512*aa
write vol 16 512*aa
write vol 24 512*aa
status snap
save cow 0 8
write vol 32 512*aa
status snap
save cow 0 8
save cow 8 8
read snap 0 1
