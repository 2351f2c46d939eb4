# The origin and a snapshot are written and flushed, the snapshot is written again, and after each event of one write more of the
# origin all that was not flushed is lost: what was flushed stays, and the snapshot's last write stays where a copy's flush came behind it.
# That a disk keeps what was flushed is how a volatile cache is defined; that a volume is stopped by a command is this project's.
disk base 8
disk cow 8
create vol 0 8 snapshot-origin base
write vol 0 4096*11
create snap 0 8 snapshot base cow P 1
write vol 2 512*22
write snap 6 512*66
flush vol
flush snap
write snap 6 512*67
start vol write 5 512*aa
stop vol lose
save cow 1 1
save base 0 8
create vol 0 8 snapshot-origin base
create snap 0 8 snapshot base cow P 1
status snap
read snap 0 8
read vol 0 8
remove snap
remove vol
remove base
remove cow
disk base 8
disk cow 8
create vol 0 8 snapshot-origin base
write vol 0 4096*11
create snap 0 8 snapshot base cow P 1
write vol 2 512*22
write snap 6 512*66
flush vol
flush snap
write snap 6 512*67
start vol write 5 512*aa
step vol copy-read 3
stop vol lose
save cow 1 1
save base 0 8
create vol 0 8 snapshot-origin base
create snap 0 8 snapshot base cow P 1
status snap
read snap 0 8
read vol 0 8
remove snap
remove vol
remove base
remove cow
disk base 8
disk cow 8
create vol 0 8 snapshot-origin base
write vol 0 4096*11
create snap 0 8 snapshot base cow P 1
write vol 2 512*22
write snap 6 512*66
flush vol
flush snap
write snap 6 512*67
start vol write 5 512*aa
step vol copy-read 3
step vol copy-write 3
stop vol lose
save cow 1 1
save base 0 8
create vol 0 8 snapshot-origin base
create snap 0 8 snapshot base cow P 1
status snap
read snap 0 8
read vol 0 8
remove snap
remove vol
remove base
remove cow
disk base 8
disk cow 8
create vol 0 8 snapshot-origin base
write vol 0 4096*11
create snap 0 8 snapshot base cow P 1
write vol 2 512*22
write snap 6 512*66
flush vol
flush snap
write snap 6 512*67
start vol write 5 512*aa
step vol copy-read 3
step vol copy-write 3
step vol flush-store snap
stop vol lose
save cow 1 1
save base 0 8
create vol 0 8 snapshot-origin base
create snap 0 8 snapshot base cow P 1
status snap
read snap 0 8
read vol 0 8
remove snap
remove vol
remove base
remove cow
disk base 8
disk cow 8
create vol 0 8 snapshot-origin base
write vol 0 4096*11
create snap 0 8 snapshot base cow P 1
write vol 2 512*22
write snap 6 512*66
flush vol
flush snap
write snap 6 512*67
start vol write 5 512*aa
step vol copy-read 3
step vol copy-write 3
step vol flush-store snap
step vol write-area snap
stop vol lose
save cow 1 1
save base 0 8
create vol 0 8 snapshot-origin base
create snap 0 8 snapshot base cow P 1
status snap
read snap 0 8
read vol 0 8
remove snap
remove vol
remove base
remove cow
disk base 8
disk cow 8
create vol 0 8 snapshot-origin base
write vol 0 4096*11
create snap 0 8 snapshot base cow P 1
write vol 2 512*22
write snap 6 512*66
flush vol
flush snap
write snap 6 512*67
start vol write 5 512*aa
step vol copy-read 3
step vol copy-write 3
step vol flush-store snap
step vol write-area snap
step vol flush-store snap
stop vol lose
save cow 1 1
save base 0 8
create vol 0 8 snapshot-origin base
create snap 0 8 snapshot base cow P 1
status snap
read snap 0 8
read vol 0 8
remove snap
remove vol
remove base
remove cow
disk base 8
disk cow 8
create vol 0 8 snapshot-origin base
write vol 0 4096*11
create snap 0 8 snapshot base cow P 1
write vol 2 512*22
write snap 6 512*66
flush vol
flush snap
write snap 6 512*67
start vol write 5 512*aa
step vol copy-read 3
step vol copy-write 3
step vol flush-store snap
step vol write-area snap
step vol flush-store snap
step vol publish 3
stop vol lose
save cow 1 1
save base 0 8
create vol 0 8 snapshot-origin base
create snap 0 8 snapshot base cow P 1
status snap
read snap 0 8
read vol 0 8
remove snap
remove vol
remove base
remove cow
disk base 8
disk cow 8
create vol 0 8 snapshot-origin base
write vol 0 4096*11
create snap 0 8 snapshot base cow P 1
write vol 2 512*22
write snap 6 512*66
flush vol
flush snap
write snap 6 512*67
start vol write 5 512*aa
step vol copy-read 3
step vol copy-write 3
step vol flush-store snap
step vol write-area snap
step vol flush-store snap
step vol publish 3
step vol issue 7
stop vol lose
save cow 1 1
save base 0 8
create vol 0 8 snapshot-origin base
create snap 0 8 snapshot base cow P 1
status snap
read snap 0 8
read vol 0 8
remove snap
remove vol
remove base
remove cow
