# Requests in flight end in a flush: their replies stand before its own answer.
# That a flush of a device makes what was written to it last is the block layer's rule; that it is asked for by a command is this project's.
disk base 128
disk cow 64
create vol 0 128 snapshot-origin base
write vol 0 65536*11
create snap 0 128 snapshot base cow P 1
start vol write 5 512*aa
start snap read 7 1
start snap write 9 512*77
flush vol
start vol write 5 512*bb
start vol write 6 512*bb
flush snap
status snap
read vol 5 2
read snap 5 2
flush vol
flush snap
