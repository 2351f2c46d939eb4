# A rollback: take a snapshot, change the origin, and merge the snapshot back.
#
# In words of LVM: `lvcreate -s`, a change that turns out to be a mistake, and `lvconvert --merge`.
disk base 128
disk cow 64
create vol 0 128 snapshot-origin base
write vol 0 65536*11
create snap 0 128 snapshot base cow P 1

# The mistake. The snapshot still shows the old sector, which was saved in chunk 2 of the store.
write vol 5 512*aa
read vol 5 1
read snap 5 1
status snap

# The merge begins. From now on the origin shows what the snapshot showed, though nothing is copied back yet: the disk holds the
# mistake, and three sectors of the store are in use. The snapshot can be used no more.
merge snap
read vol 5 1
save base 5 1
status vol

# All of it is copied back: nothing of the store is in use but the two sectors that hold no copies.
settle vol
status vol

# The merge is taken out: the disk is as it was, the name of the snapshot is gone, and nothing uses its store any more.
finish vol
save base 5 1
