# Replies to others come before a refusal as well.
# The order of the events is that of docs/DESIGN.md, a volume as single events.
disk base 128
disk cow 3
create vol 0 128 snapshot-origin base
write vol 0 65536*11
create snap 0 128 snapshot base cow P 1
write snap 0 512*77
start vol read 7 1
start snap read 7 1
write snap 1 512*55
status snap
save cow 0 1
