# A machine that goes down in the middle of a rollback, with a write on its way: what the disks have is enough to go on.
disk base 128
disk cow 64
create vol 0 128 snapshot-origin base
write vol 0 65536*11
create snap 0 128 snapshot base cow P 1

# The mistake: two sectors of the origin change. The old ones are saved, sector 5 in chunk 2 of the store and 20 in chunk 3.
write vol 5 512*aa
write vol 20 512*bb

# The rollback begins, from the last pair backwards: sector 20 is copied back, and its pair is still on the store. A write is
# accepted meanwhile, and not done yet.
merge snap
step vol merge-group
step vol merge-read
step vol merge-write
start vol write 9 512*cc

# The machine goes down. The write never comes to the disk, and gets no answer. Sector 20 is back, sector 5 is not, and the store
# has both pairs.
stop vol
save base 20 1
save base 5 1
save base 9 1
save cow 1 1

# The same two lines make the volume again. The snapshot shows what it showed, and its merge begins again: sector 20 is copied
# back once more, which changes nothing.
create vol 0 128 snapshot-origin base
create snap 0 128 snapshot base cow P 1
read snap 5 1
read snap 20 1
merge snap
settle vol
status vol
finish vol
save base 0 128
