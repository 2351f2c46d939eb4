# A first snapshot: take it, change the origin, and read both.
#
# In words of dmsetup: an origin over a disk, and a snapshot of it whose store is a second disk.

# Two disks of zeros, in sectors of 512 bytes: one for the volume, one for the snapshot's store.
disk base 128
disk cow 64

# An origin on the first disk, filled with bytes 11 (65536 of them: 128 sectors).
create vol 0 128 snapshot-origin base
write vol 0 65536*11

# A snapshot of it, persistent, with chunks of one sector.
create snap 0 128 snapshot base cow P 1

# The origin changes; the snapshot still shows the old sector.
write vol 5 512*aa
read vol 5 1
read snap 5 1

# Three of the store's 64 sectors are in use: header, list of pairs, and one saved chunk. Two of them hold no copies.
status snap

# The store's own sectors: the pair of chunks (5, 2), and the old bytes in chunk 2.
save cow 1 1
save cow 2 1
