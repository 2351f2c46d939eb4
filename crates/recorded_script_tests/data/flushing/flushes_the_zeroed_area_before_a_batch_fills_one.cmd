# Room for two in the area: both copies are committed together, and only once the next area is zeroed and flushed.
# The order of the events is that of docs/DESIGN.md, a volume as single events.
disk base 128
disk cow 64
create vol 0 128 snapshot-origin base
write vol 0 65536*11
create snap 0 128 snapshot base cow P 1
write vol 0 15360*aa
status snap
start vol write 40 512*bb
start vol write 41 512*bb
step vol copy-read 31
step vol copy-read 32
step vol copy-write 31
step vol copy-write 32
step vol zero-next snap
step vol flush-store snap
step vol write-area snap
step vol zero-next snap
step vol zero-next snap
step vol write-area snap
status snap
step vol flush-store snap
step vol flush-store snap
step vol zero-next snap
step vol write-area snap
save cow 34 1
status snap
step vol publish 31
step vol flush-store snap
step vol publish 31
step vol publish 32
settle vol
