# No origin goes while a request is in flight.
# The order of the events is that of docs/DESIGN.md, a volume as single events.
disk base 128
create vol 0 128 snapshot-origin base
start vol write 0 512*aa
remove vol
save base 0 1
step vol issue 1
save base 0 1
remove vol
create vol 0 128 snapshot-origin base
start vol read 0 1
settle vol
