# Without a snapshot pieces are of 1024 sectors, and a request that is started lies in one.
# The order of the events is that of docs/DESIGN.md, a volume as single events.
disk base 2048
create vol 0 2048 snapshot-origin base
start vol read 1023 2
start vol read 0 1025
start vol read 1023 1
start vol read 1024 1024
read vol 0 2048
start vol read 0 1
