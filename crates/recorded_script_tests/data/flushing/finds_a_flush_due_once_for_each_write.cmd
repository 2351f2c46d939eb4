# A flush of the store is due after the write of the first copy and after that of the area, and once each time.
# The order of the events is that of docs/DESIGN.md, a volume as single events.
disk base 128
disk cow 64
create vol 0 128 snapshot-origin base
write vol 0 65536*11
create snap 0 128 snapshot base cow P 1
start vol write 5 512*aa
step vol flush-store snap
step vol copy-read 1
step vol flush-store snap
step vol write-area snap
step vol copy-write 1
step vol write-area snap
step vol flush-store snap
step vol flush-store snap
step vol zero-next snap
step vol publish 1
step vol write-area snap
step vol publish 1
step vol write-area snap
step vol flush-store snap
step vol flush-store snap
step vol issue 2
step vol publish 1
step vol flush-store snap
step vol issue 2
step vol flush-store snap
status snap
