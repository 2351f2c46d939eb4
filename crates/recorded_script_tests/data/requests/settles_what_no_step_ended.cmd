# What is refused while requests are in flight, and that `settle` ends them.
# The order of the events is that of docs/DESIGN.md, a volume as single events.
disk base 128
disk cow 64
create vol 0 128 snapshot-origin base
create snap 0 128 snapshot base cow P 8
start vol read 3 1
start snap read 4 1
start snap read 128 1
remove snap
step vol issue 2
step vol issue 2
settle vol
step vol issue 1
remove snap
start vol read 5 1
remove vol
