# A bad sector of the store: reads of the chunk that stands there fail, nothing is lost, and a write heals it.
disk base 128
disk cow 64
create vol 0 128 snapshot-origin base
write vol 0 65536*11

# The store stands behind a dust layer with blocks of one sector. Its list of bad blocks is empty, and it is not enabled.
create du 0 64 dust cow 0 512
create snap 0 128 snapshot base du P 1

# The old chunk 5 is saved in chunk 2 of the store, which then goes bad.
write vol 5 512*aa
message du 0 addbadblock 2
message du 0 addbadblock 2
message du 0 enable
message du 0 queryblock 2

# A read of that chunk fails, and of any other does not. The snapshot is as valid as before: the chunk stands on the store.
read snap 5 1
read snap 6 1
read vol 5 1
status snap

# With the layer in bypass the old bytes are there.
message du 0 disable
read snap 5 1

# A write of the snapshot goes to the chunk's place, and takes the block off the list.
message du 0 enable
read snap 5 1
write snap 5 512*77
message du 0 queryblock 2
message du 0 countbadblocks
read snap 5 1
read vol 5 1
