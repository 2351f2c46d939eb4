# A write that finds the store full is refused where it is started, and spoils; the read in flight is then refused too.
# The order of the events is that of docs/DESIGN.md, a volume as single events.
disk base 128
disk cow 3
create vol 0 128 snapshot-origin base
write vol 0 65536*11
create snap 0 128 snapshot base cow P 1
write snap 0 512*77
start snap read 1 1
start snap write 1 512*55
step vol write-invalid snap
step vol issue 3
