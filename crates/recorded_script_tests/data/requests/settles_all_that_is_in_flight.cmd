# `settle` does all events that are due and prints each reply in its order.
# The order of the events is that of docs/DESIGN.md, a volume as single events.
disk base 128
disk cow 64
create vol 0 128 snapshot-origin base
write vol 0 65536*11
create snap 0 128 snapshot base cow P 1
start vol write 5 512*aa
start vol write 5 512*bb
start snap read 5 1
start snap write 9 512*77
start vol read 5 1
settle vol
settle vol
status snap
read snap 9 1
save cow 1 1
