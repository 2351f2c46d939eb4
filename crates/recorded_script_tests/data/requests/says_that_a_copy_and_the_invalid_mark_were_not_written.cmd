# A copy and then a mark that are not written tell `fault` each; the store is stale.
# The order of the events is that of docs/DESIGN.md, a volume as single events.
disk base 128
disk cow 64
create vol 0 128 snapshot-origin base
write vol 0 65536*11
create fl 0 64 flakey cow 0 1 1 1 error_writes
create snap 0 128 snapshot base fl P 1
start vol write 5 512*aa
step vol copy-read 1
tick 1
step vol copy-write 1
step vol issue 2
step vol write-invalid snap
step vol issue 2
tick 1
remove snap
create snap 0 128 snapshot base fl P 1
