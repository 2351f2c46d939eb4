# A request that is started lies in one chunk.
# The order of the events is that of docs/DESIGN.md, a volume as single events.
disk base 128
disk cow 64
create vol 0 128 snapshot-origin base
start vol read 4 2
create s 0 128 snapshot base cow P 2
settle vol
create s 0 128 snapshot base cow P 2
start vol read 3 2
start vol write 5 1024*aa
start s read 3 2
start s write 127 1024*aa
start vol read 128 1
start vol read 4 2
settle vol
