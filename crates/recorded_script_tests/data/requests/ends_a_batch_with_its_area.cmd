# A batch ends with its area: the copy behind the area's end waits, and the next area is zeroed for the last of the batch.
# The order of the events is that of docs/DESIGN.md, a volume as single events.
disk base 128
disk cow 64
create vol 0 128 snapshot-origin base
write vol 0 65536*11
create snap 0 128 snapshot base cow P 1
write vol 0 512*aa
write vol 1 512*aa
write vol 2 512*aa
write vol 3 512*aa
write vol 4 512*aa
write vol 5 512*aa
write vol 6 512*aa
write vol 7 512*aa
write vol 8 512*aa
write vol 9 512*aa
write vol 10 512*aa
write vol 11 512*aa
write vol 12 512*aa
write vol 13 512*aa
write vol 14 512*aa
write vol 15 512*aa
write vol 16 512*aa
write vol 17 512*aa
write vol 18 512*aa
write vol 19 512*aa
write vol 20 512*aa
write vol 21 512*aa
write vol 22 512*aa
write vol 23 512*aa
write vol 24 512*aa
write vol 25 512*aa
write vol 26 512*aa
write vol 27 512*aa
write vol 28 512*aa
write vol 29 512*aa
start vol write 40 512*bb
start vol write 41 512*bb
start vol write 42 512*bb
step vol copy-read 31
step vol copy-read 32
step vol copy-read 33
step vol copy-write 31
step vol copy-write 32
step vol copy-write 33
step vol write-area snap
step vol flush-store snap
step vol zero-next snap
step vol zero-next snap
step vol flush-store snap
step vol write-area snap
status snap
step vol write-area snap
status snap
step vol write-area snap
settle vol
