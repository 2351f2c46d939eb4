# Two copies that are written are committed by one write of the area, and published each by itself.
# The order of the events is that of docs/DESIGN.md, a volume as single events.
disk base 128
disk cow 64
create vol 0 128 snapshot-origin base
write vol 0 65536*11
create snap 0 128 snapshot base cow P 1
start vol write 5 512*aa
start vol write 6 512*bb
step vol copy-read 1
step vol copy-read 2
step vol copy-write 2
step vol write-area snap
step vol copy-write 1
step vol flush-store snap
step vol write-area snap
save cow 1 1
step vol write-area snap
step vol flush-store snap
step vol publish 1
step vol publish 2
step vol issue 2
step vol issue 3
