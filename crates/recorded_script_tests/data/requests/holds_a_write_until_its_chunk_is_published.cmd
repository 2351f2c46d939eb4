# A write of the origin goes on after its copy is read, written, committed and published, and no event before that is due.
# The order of the events is that of docs/DESIGN.md, a volume as single events.
disk base 128
disk cow 64
create vol 0 128 snapshot-origin base
create snap 0 128 snapshot base cow P 1
start vol write 5 512*aa
step vol issue 1
step vol copy-write 1
step vol copy-read 1
step vol issue 1
step vol copy-write 1
step vol issue 1
step vol flush-store snap
step vol write-area snap
step vol issue 1
step vol flush-store snap
step vol publish 1
step vol issue 1
step vol issue 1
settle vol
save base 5 1
save cow 1 1
