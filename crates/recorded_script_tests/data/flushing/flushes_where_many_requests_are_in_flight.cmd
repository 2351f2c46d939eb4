# Of 64 requests in flight none more is taken, a flush neither.
# That a flush of a device makes what was written to it last is the block layer's rule; that it is asked for by a command is this project's.
disk base 128
disk cow 64
create vol 0 128 snapshot-origin base
write vol 0 65536*11
create snap 0 128 snapshot base cow P 1
start vol read 0 1
start vol read 1 1
start vol read 2 1
start vol read 3 1
start vol read 4 1
start vol read 5 1
start vol read 6 1
start vol read 7 1
start vol read 8 1
start vol read 9 1
start vol read 10 1
start vol read 11 1
start vol read 12 1
start vol read 13 1
start vol read 14 1
start vol read 15 1
start vol read 16 1
start vol read 17 1
start vol read 18 1
start vol read 19 1
start vol read 20 1
start vol read 21 1
start vol read 22 1
start vol read 23 1
start vol read 24 1
start vol read 25 1
start vol read 26 1
start vol read 27 1
start vol read 28 1
start vol read 29 1
start vol read 30 1
start vol read 31 1
start vol read 32 1
start vol read 33 1
start vol read 34 1
start vol read 35 1
start vol read 36 1
start vol read 37 1
start vol read 38 1
start vol read 39 1
start vol read 40 1
start vol read 41 1
start vol read 42 1
start vol read 43 1
start vol read 44 1
start vol read 45 1
start vol read 46 1
start vol read 47 1
start vol read 48 1
start vol read 49 1
start vol read 50 1
start vol read 51 1
start vol read 52 1
start vol read 53 1
start vol read 54 1
start vol read 55 1
start vol read 56 1
start vol read 57 1
start vol read 58 1
start vol read 59 1
start vol read 60 1
start vol read 61 1
start vol read 62 1
start vol write 70 512*aa
flush vol
flush snap
step vol issue 2
flush vol
flush vol
