# A store that a Linux kernel wrote (its target `snapshot`, with chunks of eight sectors) is attached here.
#
# There the origin had 320 sectors of 11. A sector of chunk 3 was written, and then one of chunk 0; the kernel's last status line
# was `0 320 snapshot 32/200 16`. What stood on the two disks is loaded here sector by sector.
disk base 320
disk cow 200
load base 0 163840*11
load base 24 512*aa
load base 0 512*bb

# The store: its header (magic number, valid, version 1, eight sectors), the area with the pairs (3, 2) and (0, 3), and the two
# chunks as they were.
load cow 0 1*53 1*6e 1*41 1*70 1*01 3*00 1*01 3*00 1*08 4083*00
load cow 8 1*03 7*00 1*02 15*00 1*03 4071*00
load cow 16 4096*11
load cow 24 4096*11

# It is attached by a line that names another chunk size; the header's counts, as in the kernel. The status line is the kernel's.
create vol 0 320 snapshot-origin base
create snap 0 320 snapshot base cow P 16
table snap
status snap
read vol 0 1
read snap 0 1
read vol 24 1
read snap 24 1

# And it goes on: the next chunk that is saved gets the next place. Its pair is (5, 4).
write vol 40 512*cc
read snap 40 1
status snap
save cow 8 1
save cow 32 8
