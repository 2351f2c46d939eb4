# A rollback that a bad sector of the store stops once: nothing is lost, and it goes on when the sector is good again.
disk base 128
disk cow 64
create vol 0 128 snapshot-origin base
write vol 0 65536*11

# The store stands behind a dust layer, so that one of its sectors can fail below.
create du 0 64 dust cow 0 512
create snap 0 128 snapshot base du P 1

# The mistake: two sectors of the origin change. The old ones are saved, sector 5 in chunk 2 of the store and 20 in chunk 3.
write vol 5 512*aa
write vol 20 512*bb

# The merge begins. From now on the origin shows what the snapshot showed, though nothing is copied back yet; and the snapshot
# can be used no more.
merge snap
read vol 5 1
read vol 20 1
save base 20 1
read snap 5 1
table vol
status vol

# Chunk 2 of the store goes bad, and the merge is done: from the last pair backwards, so sector 20 is copied back and sector 5
# fails. The merge stops there. Nothing is lost: the pair of sector 5 stays on the store.
message du 0 addbadblock 2
message du 0 enable
settle vol
status vol
save base 20 1
read vol 5 1
finish vol

# The origin is written meanwhile. With the sector good again the merge goes on, and comes to its end.
write vol 9 512*cc
message du 0 disable
resume vol
settle vol
status vol

# It is taken out: the disk's own bytes are what the origin shows, and the name of the snapshot is gone.
finish vol
save base 0 21
status vol
status snap

# Nothing uses the store any more. It has no pair left, and serves the next snapshot.
create snap 0 128 snapshot base du P 1
status snap
