# A flush that fails after a copy, after the zeroed area and after the area: each spoils the snapshot, and tells `fault`.
# The order of the events is that of docs/DESIGN.md, a volume as single events.
disk base 128
disk cow 64
create vol 0 128 snapshot-origin base
write vol 0 65536*11
create fl 0 64 flakey cow 0 1 1 1 error_writes
create snap 0 128 snapshot base fl P 1
start vol write 5 512*aa
step vol copy-read 1
step vol copy-write 1
tick 1
step vol flush-store snap
tick 1
step vol issue 2
status snap
step vol write-invalid snap
step vol flush-store snap
step vol issue 2
save cow 1 1
remove snap
remove fl
load cow 0 512*00
create fl 0 64 flakey cow 0 1 1 1 error_writes
create snap 0 128 snapshot base fl P 1
start vol write 5 512*bb
step vol copy-read 2
step vol copy-write 2
step vol flush-store snap
step vol write-area snap
tick 1
step vol flush-store snap
tick 1
status snap
step vol publish 2
settle vol
read vol 5 1
save cow 1 1
remove snap
remove fl
load cow 0 512*00
create fl 0 64 flakey cow 0 1 1 1 error_writes
create snap 0 128 snapshot base fl P 1
write vol 0 15872*aa
start vol write 40 512*bb
step vol copy-read 34
step vol copy-write 34
step vol flush-store snap
step vol zero-next snap
tick 1
step vol flush-store snap
tick 1
status snap
settle vol
save cow 34 1
save cow 0 1
