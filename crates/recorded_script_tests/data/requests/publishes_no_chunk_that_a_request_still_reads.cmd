# A chunk is not published while a read that came before is to go to the origin's disk.
# The order of the events is that of docs/DESIGN.md, a volume as single events.
disk base 128
disk cow 64
create vol 0 128 snapshot-origin base
write vol 0 65536*11
create snap 0 128 snapshot base cow P 1
start snap read 7 1
start vol write 7 512*aa
step vol copy-read 1
step vol copy-write 1
step vol flush-store snap
step vol write-area snap
step vol publish 1
step vol issue 3
step vol issue 2
step vol flush-store snap
step vol publish 1
step vol issue 3
read snap 7 1
