# A volume is stopped with a write that waits for its copy, a read of the snapshot, and a copy half done: none of them is answered,
# and no disk is touched by it. Its names and its disks are free, and both disks have the bytes that they had: the write was never
# done, and the store has no pair. Requests count from 1 again in a new volume.
# The order of the events is that of docs/DESIGN.md, a volume as single events; the commands are this project's.
disk base 128
disk cow 64
load base 5 512*55
create vol 0 128 snapshot-origin base
create snap 0 128 snapshot base cow P 1
start vol write 5 512*aa
start snap read 9 1
start snap write 7 512*77
step vol copy-read 1
step vol copy-write 1
stop vol
status vol
status snap
step vol write-area snap
save base 5 1
save cow 1 2
load base 9 512*99
create vol 0 128 snapshot-origin base
create snap 0 128 snapshot base cow P 1
settle vol
read vol 5 1
read snap 9 1
status snap
start snap read 5 1
stop vol
