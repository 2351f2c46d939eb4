# A pair in the store's last chunk is taken; the store is full then, and the next write spoils the snapshot.
# By the format of the kernel's persistent store; the refusals are this project's.
disk base 128
disk cow 64
create vol 0 128 snapshot-origin base
write vol 0 65536*11
load cow 0 1*53 1*6e 1*41 1*70 1*01 3*00 1*01 3*00 1*01 499*00
load cow 1 1*05 7*00 1*3f 503*00
create snap 0 128 snapshot base cow P 1
status snap
write vol 6 512*aa
status snap
