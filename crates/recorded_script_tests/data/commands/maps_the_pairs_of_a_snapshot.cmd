# The pairs of a snapshot in runs, OLD NEW COUNT, in the order of the origin's chunks: as long as both chunks rise by one.
# The form is this project's own; lochknife map prints the same numbers, a line for each run.
disk base 66
disk cow 64
create vol 0 66 snapshot-origin base
create snap 0 66 snapshot base cow P 4
map snap
write vol 20 2048*aa
write vol 24 2048*ab
map snap
write vol 0 512*ac
write vol 28 4096*ad
map snap
# A write of the snapshot takes a place too, and the last chunk may be short.
write snap 65 512*ee
write vol 20 2048*aa
map snap
# No other device has pairs.
map vol
map base
map cow
map none
map
map snap 1
map Snap
# A pair counts once it is committed, whatever is in flight.
start vol write 40 512*af
map snap
step vol copy-read 7
step vol copy-write 7
step vol flush-store snap
map snap
step vol write-area snap
map snap
settle vol
# The store has the same pairs when it is attached again.
remove snap
create snap 0 66 snapshot base cow P 1
map snap
merge snap
map snap
settle vol
finish vol
map snap
# An area that is full stands between two places.
disk more 64
create snap 0 66 snapshot base more P 1
write vol 0 20480*b0
map snap
# A snapshot that is lost has none.
disk small 3
create lost 0 66 snapshot base small P 1
write vol 0 512*b1
map lost
write vol 1 512*b1
map lost
map snap
