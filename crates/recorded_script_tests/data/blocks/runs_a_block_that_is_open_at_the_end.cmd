disk base 128
disk cow 64
create vol 0 128 snapshot-origin base
write vol 0 65536*11
create snap 0 128 snapshot base cow P 1
par
# the end of the text stands for the end of the block
1 write vol 3 512*aa

1 read vol 3 1
2 read snap 3 1
