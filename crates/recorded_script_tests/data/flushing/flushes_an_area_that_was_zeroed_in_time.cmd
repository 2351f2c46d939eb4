# The next area is zeroed for the copy that fills the area; a flush for a copy that is written later is its flush too.
# The order of the events is that of docs/DESIGN.md, a volume as single events.
disk base 128
disk cow 64
create vol 0 128 snapshot-origin base
write vol 0 65536*11
create snap 0 128 snapshot base cow P 1
write vol 0 15872*aa
status snap
start vol write 40 512*bb
start vol write 41 512*cc
step vol copy-read 32
step vol copy-read 33
step vol copy-write 32
step vol flush-store snap
step vol copy-write 33
step vol zero-next snap
step vol write-area snap
step vol flush-store snap
step vol write-area snap
status snap
step vol write-area snap
save cow 1 1
save cow 35 1
settle vol
save cow 35 1
