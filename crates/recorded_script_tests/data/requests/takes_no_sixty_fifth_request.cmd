# At most 64 requests are in flight.
# The order of the events is that of docs/DESIGN.md, a volume as single events.
disk base 8
create vol 0 8 snapshot-origin base
start vol read 0 1
start vol read 0 1
start vol read 0 1
start vol read 0 1
start vol read 0 1
start vol read 0 1
start vol read 0 1
start vol read 0 1
start vol read 0 1
start vol read 0 1
start vol read 0 1
start vol read 0 1
start vol read 0 1
start vol read 0 1
start vol read 0 1
start vol read 0 1
start vol read 0 1
start vol read 0 1
start vol read 0 1
start vol read 0 1
start vol read 0 1
start vol read 0 1
start vol read 0 1
start vol read 0 1
start vol read 0 1
start vol read 0 1
start vol read 0 1
start vol read 0 1
start vol read 0 1
start vol read 0 1
start vol read 0 1
start vol read 0 1
start vol read 0 1
start vol read 0 1
start vol read 0 1
start vol read 0 1
start vol read 0 1
start vol read 0 1
start vol read 0 1
start vol read 0 1
start vol read 0 1
start vol read 0 1
start vol read 0 1
start vol read 0 1
start vol read 0 1
start vol read 0 1
start vol read 0 1
start vol read 0 1
start vol read 0 1
start vol read 0 1
start vol read 0 1
start vol read 0 1
start vol read 0 1
start vol read 0 1
start vol read 0 1
start vol read 0 1
start vol read 0 1
start vol read 0 1
start vol read 0 1
start vol read 0 1
start vol read 0 1
start vol read 0 1
start vol read 0 1
start vol read 0 1
start vol read 0 1
read vol 0 1
step vol issue 64
start vol read 0 1
start vol read 0 1
settle vol
