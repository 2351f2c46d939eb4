# The same where the store has no room for the copy: the snapshot is lost with the mark's flush, and before it is loaded again as it was
# flushed; the origin keeps what was flushed of it.
# That a disk keeps what was flushed is how a volatile cache is defined; that a volume is stopped by a command is this project's.
disk base 8
disk cow 4
create vol 0 8 snapshot-origin base
write vol 0 4096*11
create snap 0 8 snapshot base cow P 1
write vol 2 512*22
write snap 6 512*66
flush vol
flush snap
write snap 6 512*67
start vol write 5 512*aa
stop vol lose
save cow 0 2
save base 0 8
create vol 0 8 snapshot-origin base
create snap 0 8 snapshot base cow P 1
status snap
read snap 0 8
read vol 0 8
remove snap
remove vol
remove base
remove cow
disk base 8
disk cow 4
create vol 0 8 snapshot-origin base
write vol 0 4096*11
create snap 0 8 snapshot base cow P 1
write vol 2 512*22
write snap 6 512*66
flush vol
flush snap
write snap 6 512*67
start vol write 5 512*aa
step vol write-invalid snap
stop vol lose
save cow 0 2
save base 0 8
create vol 0 8 snapshot-origin base
create snap 0 8 snapshot base cow P 1
status snap
read snap 0 8
read vol 0 8
remove snap
remove vol
remove base
remove cow
disk base 8
disk cow 4
create vol 0 8 snapshot-origin base
write vol 0 4096*11
create snap 0 8 snapshot base cow P 1
write vol 2 512*22
write snap 6 512*66
flush vol
flush snap
write snap 6 512*67
start vol write 5 512*aa
step vol write-invalid snap
step vol flush-store snap
stop vol lose
save cow 0 2
save base 0 8
create vol 0 8 snapshot-origin base
create snap 0 8 snapshot base cow P 1
status snap
read snap 0 8
read vol 0 8
remove snap
remove vol
remove base
remove cow
disk base 8
disk cow 4
create vol 0 8 snapshot-origin base
write vol 0 4096*11
create snap 0 8 snapshot base cow P 1
write vol 2 512*22
write snap 6 512*66
flush vol
flush snap
write snap 6 512*67
start vol write 5 512*aa
step vol write-invalid snap
step vol flush-store snap
step vol issue 7
stop vol lose
save cow 0 2
save base 0 8
create vol 0 8 snapshot-origin base
create snap 0 8 snapshot base cow P 1
status snap
read snap 0 8
read vol 0 8
remove snap
remove vol
remove base
remove cow
