# After each event of two writes what was not flushed is lost: loaded again, the snapshot shows what it showed.
# That a disk keeps what was flushed is how a volatile cache is defined; that a volume is stopped by a command is this project's.
disk base 8
disk cow 8
create vol 0 8 snapshot-origin base
write vol 0 4096*11
create snap 0 8 snapshot base cow P 1
start vol write 5 512*aa
start vol write 3 512*bb
stop vol lose
save cow 1 1
create vol 0 8 snapshot-origin base
create snap 0 8 snapshot base cow P 1
status snap
read snap 0 8
read vol 0 8
remove snap
remove vol
remove base
remove cow
disk base 8
disk cow 8
create vol 0 8 snapshot-origin base
write vol 0 4096*11
create snap 0 8 snapshot base cow P 1
start vol write 5 512*aa
start vol write 3 512*bb
step vol copy-read 1
stop vol lose
save cow 1 1
create vol 0 8 snapshot-origin base
create snap 0 8 snapshot base cow P 1
status snap
read snap 0 8
read vol 0 8
remove snap
remove vol
remove base
remove cow
disk base 8
disk cow 8
create vol 0 8 snapshot-origin base
write vol 0 4096*11
create snap 0 8 snapshot base cow P 1
start vol write 5 512*aa
start vol write 3 512*bb
step vol copy-read 1
step vol copy-write 1
stop vol lose
save cow 1 1
create vol 0 8 snapshot-origin base
create snap 0 8 snapshot base cow P 1
status snap
read snap 0 8
read vol 0 8
remove snap
remove vol
remove base
remove cow
disk base 8
disk cow 8
create vol 0 8 snapshot-origin base
write vol 0 4096*11
create snap 0 8 snapshot base cow P 1
start vol write 5 512*aa
start vol write 3 512*bb
step vol copy-read 1
step vol copy-write 1
step vol flush-store snap
stop vol lose
save cow 1 1
create vol 0 8 snapshot-origin base
create snap 0 8 snapshot base cow P 1
status snap
read snap 0 8
read vol 0 8
remove snap
remove vol
remove base
remove cow
disk base 8
disk cow 8
create vol 0 8 snapshot-origin base
write vol 0 4096*11
create snap 0 8 snapshot base cow P 1
start vol write 5 512*aa
start vol write 3 512*bb
step vol copy-read 1
step vol copy-write 1
step vol flush-store snap
step vol write-area snap
stop vol lose
save cow 1 1
create vol 0 8 snapshot-origin base
create snap 0 8 snapshot base cow P 1
status snap
read snap 0 8
read vol 0 8
remove snap
remove vol
remove base
remove cow
disk base 8
disk cow 8
create vol 0 8 snapshot-origin base
write vol 0 4096*11
create snap 0 8 snapshot base cow P 1
start vol write 5 512*aa
start vol write 3 512*bb
step vol copy-read 1
step vol copy-write 1
step vol flush-store snap
step vol write-area snap
step vol flush-store snap
stop vol lose
save cow 1 1
create vol 0 8 snapshot-origin base
create snap 0 8 snapshot base cow P 1
status snap
read snap 0 8
read vol 0 8
remove snap
remove vol
remove base
remove cow
disk base 8
disk cow 8
create vol 0 8 snapshot-origin base
write vol 0 4096*11
create snap 0 8 snapshot base cow P 1
start vol write 5 512*aa
start vol write 3 512*bb
step vol copy-read 1
step vol copy-write 1
step vol flush-store snap
step vol write-area snap
step vol flush-store snap
step vol publish 1
stop vol lose
save cow 1 1
create vol 0 8 snapshot-origin base
create snap 0 8 snapshot base cow P 1
status snap
read snap 0 8
read vol 0 8
remove snap
remove vol
remove base
remove cow
disk base 8
disk cow 8
create vol 0 8 snapshot-origin base
write vol 0 4096*11
create snap 0 8 snapshot base cow P 1
start vol write 5 512*aa
start vol write 3 512*bb
step vol copy-read 1
step vol copy-write 1
step vol flush-store snap
step vol write-area snap
step vol flush-store snap
step vol publish 1
step vol copy-read 2
stop vol lose
save cow 1 1
create vol 0 8 snapshot-origin base
create snap 0 8 snapshot base cow P 1
status snap
read snap 0 8
read vol 0 8
remove snap
remove vol
remove base
remove cow
disk base 8
disk cow 8
create vol 0 8 snapshot-origin base
write vol 0 4096*11
create snap 0 8 snapshot base cow P 1
start vol write 5 512*aa
start vol write 3 512*bb
step vol copy-read 1
step vol copy-write 1
step vol flush-store snap
step vol write-area snap
step vol flush-store snap
step vol publish 1
step vol copy-read 2
step vol copy-write 2
stop vol lose
save cow 1 1
create vol 0 8 snapshot-origin base
create snap 0 8 snapshot base cow P 1
status snap
read snap 0 8
read vol 0 8
remove snap
remove vol
remove base
remove cow
disk base 8
disk cow 8
create vol 0 8 snapshot-origin base
write vol 0 4096*11
create snap 0 8 snapshot base cow P 1
start vol write 5 512*aa
start vol write 3 512*bb
step vol copy-read 1
step vol copy-write 1
step vol flush-store snap
step vol write-area snap
step vol flush-store snap
step vol publish 1
step vol copy-read 2
step vol copy-write 2
step vol flush-store snap
stop vol lose
save cow 1 1
create vol 0 8 snapshot-origin base
create snap 0 8 snapshot base cow P 1
status snap
read snap 0 8
read vol 0 8
remove snap
remove vol
remove base
remove cow
disk base 8
disk cow 8
create vol 0 8 snapshot-origin base
write vol 0 4096*11
create snap 0 8 snapshot base cow P 1
start vol write 5 512*aa
start vol write 3 512*bb
step vol copy-read 1
step vol copy-write 1
step vol flush-store snap
step vol write-area snap
step vol flush-store snap
step vol publish 1
step vol copy-read 2
step vol copy-write 2
step vol flush-store snap
step vol write-area snap
stop vol lose
save cow 1 1
create vol 0 8 snapshot-origin base
create snap 0 8 snapshot base cow P 1
status snap
read snap 0 8
read vol 0 8
remove snap
remove vol
remove base
remove cow
disk base 8
disk cow 8
create vol 0 8 snapshot-origin base
write vol 0 4096*11
create snap 0 8 snapshot base cow P 1
start vol write 5 512*aa
start vol write 3 512*bb
step vol copy-read 1
step vol copy-write 1
step vol flush-store snap
step vol write-area snap
step vol flush-store snap
step vol publish 1
step vol copy-read 2
step vol copy-write 2
step vol flush-store snap
step vol write-area snap
step vol flush-store snap
stop vol lose
save cow 1 1
create vol 0 8 snapshot-origin base
create snap 0 8 snapshot base cow P 1
status snap
read snap 0 8
read vol 0 8
remove snap
remove vol
remove base
remove cow
disk base 8
disk cow 8
create vol 0 8 snapshot-origin base
write vol 0 4096*11
create snap 0 8 snapshot base cow P 1
start vol write 5 512*aa
start vol write 3 512*bb
step vol copy-read 1
step vol copy-write 1
step vol flush-store snap
step vol write-area snap
step vol flush-store snap
step vol publish 1
step vol copy-read 2
step vol copy-write 2
step vol flush-store snap
step vol write-area snap
step vol flush-store snap
step vol publish 2
stop vol lose
save cow 1 1
create vol 0 8 snapshot-origin base
create snap 0 8 snapshot base cow P 1
status snap
read snap 0 8
read vol 0 8
remove snap
remove vol
remove base
remove cow
disk base 8
disk cow 8
create vol 0 8 snapshot-origin base
write vol 0 4096*11
create snap 0 8 snapshot base cow P 1
start vol write 5 512*aa
start vol write 3 512*bb
step vol copy-read 1
step vol copy-write 1
step vol flush-store snap
step vol write-area snap
step vol flush-store snap
step vol publish 1
step vol copy-read 2
step vol copy-write 2
step vol flush-store snap
step vol write-area snap
step vol flush-store snap
step vol publish 2
step vol issue 2
stop vol lose
save cow 1 1
create vol 0 8 snapshot-origin base
create snap 0 8 snapshot base cow P 1
status snap
read snap 0 8
read vol 0 8
remove snap
remove vol
remove base
remove cow
disk base 8
disk cow 8
create vol 0 8 snapshot-origin base
write vol 0 4096*11
create snap 0 8 snapshot base cow P 1
start vol write 5 512*aa
start vol write 3 512*bb
step vol copy-read 1
step vol copy-write 1
step vol flush-store snap
step vol write-area snap
step vol flush-store snap
step vol publish 1
step vol copy-read 2
step vol copy-write 2
step vol flush-store snap
step vol write-area snap
step vol flush-store snap
step vol publish 2
step vol issue 2
step vol issue 3
stop vol lose
save cow 1 1
create vol 0 8 snapshot-origin base
create snap 0 8 snapshot base cow P 1
status snap
read snap 0 8
read vol 0 8
remove snap
remove vol
remove base
remove cow
