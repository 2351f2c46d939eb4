# Free places below the greatest that is used stay free.
# Status lines and raw bytes as recorded from the Linux kernel.
disk base 128
disk cow 64
create vol 0 128 snapshot-origin base
write vol 0 65536*11
load cow 0 1*53 1*6e 1*41 1*70 1*01 3*00 1*01 3*00 1*01 499*00
load cow 1 1*05 7*00 1*09 7*00 1*06 7*00 1*03 487*00
create snap 0 128 snapshot base cow P 1
status snap
write vol 7 512*aa
save cow 1 1
