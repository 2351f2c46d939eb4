# After each event of a write to a snapshot what was not flushed is lost: loaded again, it shows what it showed before, or with the
# write where that was flushed, as the write before is by the flushes of the next.
# That a disk keeps what was flushed is how a volatile cache is defined; that a volume is stopped by a command is this project's.
disk base 8
disk cow 8
create vol 0 8 snapshot-origin base
write vol 0 4096*11
create snap 0 8 snapshot base cow P 1
write snap 3 512*76
start snap write 5 512*77
stop vol lose
create vol 0 8 snapshot-origin base
create snap 0 8 snapshot base cow P 1
status snap
read snap 0 8
read vol 0 8
remove snap
remove vol
remove base
remove cow
disk base 8
disk cow 8
create vol 0 8 snapshot-origin base
write vol 0 4096*11
create snap 0 8 snapshot base cow P 1
write snap 3 512*76
start snap write 5 512*77
step vol copy-read 2
stop vol lose
create vol 0 8 snapshot-origin base
create snap 0 8 snapshot base cow P 1
status snap
read snap 0 8
read vol 0 8
remove snap
remove vol
remove base
remove cow
disk base 8
disk cow 8
create vol 0 8 snapshot-origin base
write vol 0 4096*11
create snap 0 8 snapshot base cow P 1
write snap 3 512*76
start snap write 5 512*77
step vol copy-read 2
step vol copy-write 2
stop vol lose
create vol 0 8 snapshot-origin base
create snap 0 8 snapshot base cow P 1
status snap
read snap 0 8
read vol 0 8
remove snap
remove vol
remove base
remove cow
disk base 8
disk cow 8
create vol 0 8 snapshot-origin base
write vol 0 4096*11
create snap 0 8 snapshot base cow P 1
write snap 3 512*76
start snap write 5 512*77
step vol copy-read 2
step vol copy-write 2
step vol flush-store snap
stop vol lose
create vol 0 8 snapshot-origin base
create snap 0 8 snapshot base cow P 1
status snap
read snap 0 8
read vol 0 8
remove snap
remove vol
remove base
remove cow
disk base 8
disk cow 8
create vol 0 8 snapshot-origin base
write vol 0 4096*11
create snap 0 8 snapshot base cow P 1
write snap 3 512*76
start snap write 5 512*77
step vol copy-read 2
step vol copy-write 2
step vol flush-store snap
step vol write-area snap
stop vol lose
create vol 0 8 snapshot-origin base
create snap 0 8 snapshot base cow P 1
status snap
read snap 0 8
read vol 0 8
remove snap
remove vol
remove base
remove cow
disk base 8
disk cow 8
create vol 0 8 snapshot-origin base
write vol 0 4096*11
create snap 0 8 snapshot base cow P 1
write snap 3 512*76
start snap write 5 512*77
step vol copy-read 2
step vol copy-write 2
step vol flush-store snap
step vol write-area snap
step vol flush-store snap
stop vol lose
create vol 0 8 snapshot-origin base
create snap 0 8 snapshot base cow P 1
status snap
read snap 0 8
read vol 0 8
remove snap
remove vol
remove base
remove cow
disk base 8
disk cow 8
create vol 0 8 snapshot-origin base
write vol 0 4096*11
create snap 0 8 snapshot base cow P 1
write snap 3 512*76
start snap write 5 512*77
step vol copy-read 2
step vol copy-write 2
step vol flush-store snap
step vol write-area snap
step vol flush-store snap
step vol publish 2
stop vol lose
create vol 0 8 snapshot-origin base
create snap 0 8 snapshot base cow P 1
status snap
read snap 0 8
read vol 0 8
remove snap
remove vol
remove base
remove cow
disk base 8
disk cow 8
create vol 0 8 snapshot-origin base
write vol 0 4096*11
create snap 0 8 snapshot base cow P 1
write snap 3 512*76
start snap write 5 512*77
step vol copy-read 2
step vol copy-write 2
step vol flush-store snap
step vol write-area snap
step vol flush-store snap
step vol publish 2
step vol issue 3
stop vol lose
create vol 0 8 snapshot-origin base
create snap 0 8 snapshot base cow P 1
status snap
read snap 0 8
read vol 0 8
remove snap
remove vol
remove base
remove cow
