# The mark is written and the flush behind it fails: the write that waits goes on, and the store is stale.
# The order of the events is that of docs/DESIGN.md, a volume as single events.
disk base 128
disk cow 64
create vol 0 128 snapshot-origin base
write vol 0 65536*11
create fl 0 3 flakey cow 0 1 1 1 error_writes
create snap 0 128 snapshot base fl P 1
write vol 0 512*aa
start vol write 1 512*bb
step vol write-invalid snap
tick 1
step vol issue 3
step vol flush-store snap
step vol flush-store snap
step vol issue 3
status snap
save cow 0 1
tick 1
remove snap
create snap 0 128 snapshot base fl P 1
remove fl
load cow 0 512*00
create snap 0 128 snapshot base cow P 1
