# Pairs that a Linux kernel wrote, as lochknife map prints them of the same image: 1 2 1, and 3 3 4.
disk base 128
disk cow 128
load cow 0 1*53 1*6e 1*41 1*70 1*01 3*00 1*01 3*00 1*08 4083*00 1*01 7*00 1*02 7*00 1*03 7*00 1*03 7*00 1*04 7*00 1*04 7*00 1*05 7*00 1*05 7*00 1*06 7*00 1*06 4023*00
load cow 16 1024*11 512*77 512*11 512*78 1536*11 4096*79
load cow 32 1024*11 7168*7a
load cow 48 1024*7a 3072*11 4096*00
create vol 0 128 snapshot-origin base
create snap 0 128 snapshot base cow P 1
map snap
write vol 64 512*aa
map snap
