# A snapshot is lost, and after each event what was not flushed is lost too: its store is refused once the mark was flushed, and
# before that it still shows what the snapshot showed.
# That a disk keeps what was flushed is how a volatile cache is defined; that a volume is stopped by a command is this project's.
disk base 8
disk cow 3
create vol 0 8 snapshot-origin base
write vol 0 4096*11
create snap 0 8 snapshot base cow P 1
write vol 0 512*aa
start vol write 1 512*bb
stop vol lose
save cow 0 1
save base 0 2
create vol 0 8 snapshot-origin base
create snap 0 8 snapshot base cow P 1
status snap
read snap 0 8
read vol 0 8
remove snap
remove vol
remove base
remove cow
disk base 8
disk cow 3
create vol 0 8 snapshot-origin base
write vol 0 4096*11
create snap 0 8 snapshot base cow P 1
write vol 0 512*aa
start vol write 1 512*bb
step vol write-invalid snap
stop vol lose
save cow 0 1
save base 0 2
create vol 0 8 snapshot-origin base
create snap 0 8 snapshot base cow P 1
status snap
read snap 0 8
read vol 0 8
remove snap
remove vol
remove base
remove cow
disk base 8
disk cow 3
create vol 0 8 snapshot-origin base
write vol 0 4096*11
create snap 0 8 snapshot base cow P 1
write vol 0 512*aa
start vol write 1 512*bb
step vol write-invalid snap
step vol flush-store snap
stop vol lose
save cow 0 1
save base 0 2
create vol 0 8 snapshot-origin base
create snap 0 8 snapshot base cow P 1
status snap
read snap 0 8
read vol 0 8
remove snap
remove vol
remove base
remove cow
disk base 8
disk cow 3
create vol 0 8 snapshot-origin base
write vol 0 4096*11
create snap 0 8 snapshot base cow P 1
write vol 0 512*aa
start vol write 1 512*bb
step vol write-invalid snap
step vol flush-store snap
step vol issue 3
stop vol lose
save cow 0 1
save base 0 2
create vol 0 8 snapshot-origin base
create snap 0 8 snapshot base cow P 1
status snap
read snap 0 8
read vol 0 8
remove snap
remove vol
remove base
remove cow
