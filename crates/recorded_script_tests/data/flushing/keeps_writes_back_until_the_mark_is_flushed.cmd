# A snapshot is lost; the write that waits is kept back until its mark is written and flushed.
# The order of the events is that of docs/DESIGN.md, a volume as single events.
disk base 128
disk cow 3
create vol 0 128 snapshot-origin base
write vol 0 65536*11
create snap 0 128 snapshot base cow P 1
write vol 0 512*aa
start vol write 1 512*bb
status snap
step vol issue 3
step vol flush-store snap
step vol write-invalid snap
step vol issue 3
step vol write-invalid snap
step vol flush-store snap
step vol flush-store snap
step vol issue 3
read vol 1 1
remove snap
create snap 0 128 snapshot base cow P 1
