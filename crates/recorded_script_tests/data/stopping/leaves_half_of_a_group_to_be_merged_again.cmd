# A volume is stopped in the middle of a group of its merge: the chunk is copied back and the pair still on the store. Both disks
# are free, and keep their bytes. A volume that is made again shows the same, and merges the same pair again.
# The order of the events is that of docs/DESIGN.md, a volume as single events; the commands are this project's.
disk base 128
disk cow 64
create vol 0 128 snapshot-origin base
write vol 0 65536*11
create snap 0 128 snapshot base cow P 1
write vol 5 512*aa
merge snap
step vol merge-group
step vol merge-read
step vol merge-write
stop vol
save base 5 1
save cow 1 1
create vol 0 128 snapshot-origin base
create snap 0 128 snapshot base cow P 1
read snap 5 1
merge snap
settle vol
finish vol
save base 5 1
