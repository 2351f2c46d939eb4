# A write of the origin is asked for after each event of its copy, and is due after the last.
# The order of the events is that of docs/DESIGN.md, a volume as single events.
disk base 128
disk cow 64
create vol 0 128 snapshot-origin base
create snap 0 128 snapshot base cow P 1
start vol write 5 512*aa
step vol issue 1
step vol copy-read 1
step vol issue 1
step vol copy-write 1
step vol issue 1
step vol flush-store snap
step vol issue 1
step vol write-area snap
step vol issue 1
step vol flush-store snap
step vol issue 1
step vol publish 1
step vol issue 1
settle vol
save base 5 1
save cow 1 1
