# Pairs behind the first empty slot are none, and are cleared when the store is attached.
# By the format of the kernel's persistent store; the refusals are this project's.
disk base 128
disk cow 64
create vol 0 128 snapshot-origin base
write vol 0 65536*11
load cow 0 1*53 1*6e 1*41 1*70 1*01 3*00 1*01 3*00 1*01 499*00
load cow 1 1*05 7*00 1*02 23*00 1*09 7*00 1*03 471*00
load cow 2 512*77
create snap 0 128 snapshot base cow P 1
save cow 1 1
read snap 5 1
read snap 9 1
status snap
