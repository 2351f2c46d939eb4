# A whole read among requests in flight: replies to others come before its line.
# The order of the events is that of docs/DESIGN.md, a volume as single events.
disk base 128
disk cow 64
create vol 0 128 snapshot-origin base
write vol 0 65536*11
create snap 0 128 snapshot base cow P 1
start vol write 5 512*aa
start vol read 5 1
start snap read 5 1
read vol 4 2
start vol read 0 1
