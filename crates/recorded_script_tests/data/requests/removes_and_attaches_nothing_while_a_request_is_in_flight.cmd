# No snapshot comes or goes while a request is in flight.
# The order of the events is that of docs/DESIGN.md, a volume as single events.
disk base 128
disk cow 64
create vol 0 128 snapshot-origin base
write vol 0 65536*11
create snap 0 128 snapshot base cow P 1
disk cow2 64
start vol read 0 1
remove snap
remove vol
create s2 0 128 snapshot base nosuch P 1
create s2 0 128 snapshot base cow2 P 1
status snap
settle vol
create s2 0 128 snapshot base cow2 P 1
remove s2
remove snap
