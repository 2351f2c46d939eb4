# A whole write among requests in flight: replies to others come before its line.
# The order of the events is that of docs/DESIGN.md, a volume as single events.
disk base 128
disk cow 64
create vol 0 128 snapshot-origin base
write vol 0 65536*11
create snap 0 128 snapshot base cow P 1
start snap read 5 1
start vol write 5 512*aa
write vol 5 512*bb
read vol 5 1
read snap 5 1
