# A store that fills up: the origin goes on, the snapshot is lost for good.
#
# The store has five sectors: a header, an area for the list of pairs, and room for three saved chunks of one sector.
disk base 128
disk cow 5
create vol 0 128 snapshot-origin base
write vol 0 65536*11
create snap 0 128 snapshot base cow P 1
status snap

# Three chunks are saved, and the store is full. The snapshot shows all that it showed.
write vol 0 512*aa
write vol 1 512*aa
write vol 2 512*aa
status snap
read snap 0 4

# A fourth has no room. The write of the origin is done all the same; the snapshot is Invalid from here on.
write vol 3 512*aa
status snap
read snap 0 1
read vol 0 5

# What is left on the store: a header with the valid word 0, and the three pairs (0, 2), (1, 3) and (2, 4).
save cow 0 1
save cow 1 1

# Such a store is not attached again, until its first sector is zeroed: then it is a fresh one, and its snapshot is a new one.
remove snap
create snap 0 128 snapshot base cow P 1
load cow 0 512*00
create snap 0 128 snapshot base cow P 1
status snap
read snap 0 4
