# A first sector that begins with four zero bytes is of a fresh store, whatever stands behind them.
# By the format of the kernel's persistent store; the refusals are this project's.
disk base 128
disk cow 64
create vol 0 128 snapshot-origin base
write vol 0 65536*11
load cow 0 4*00 508*ff
create snap 0 128 snapshot base cow P 1
save cow 0 1
