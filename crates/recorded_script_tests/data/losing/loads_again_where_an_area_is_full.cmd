# After each event of a write whose pair fills its area, and of the one after it, what was not flushed is lost.
# That a disk keeps what was flushed is how a volatile cache is defined; that a volume is stopped by a command is this project's.
disk base 40
disk cow 40
create vol 0 40 snapshot-origin base
write vol 0 20480*11
create snap 0 40 snapshot base cow P 1
write vol 0 15872*aa
start vol write 31 512*bb
start vol write 32 512*cc
stop vol lose
create vol 0 40 snapshot-origin base
create snap 0 40 snapshot base cow P 1
status snap
read snap 0 40
read vol 0 40
remove snap
remove vol
remove base
remove cow
disk base 40
disk cow 40
create vol 0 40 snapshot-origin base
write vol 0 20480*11
create snap 0 40 snapshot base cow P 1
write vol 0 15872*aa
start vol write 31 512*bb
start vol write 32 512*cc
step vol copy-read 32
stop vol lose
create vol 0 40 snapshot-origin base
create snap 0 40 snapshot base cow P 1
status snap
read snap 0 40
read vol 0 40
remove snap
remove vol
remove base
remove cow
disk base 40
disk cow 40
create vol 0 40 snapshot-origin base
write vol 0 20480*11
create snap 0 40 snapshot base cow P 1
write vol 0 15872*aa
start vol write 31 512*bb
start vol write 32 512*cc
step vol copy-read 32
step vol copy-write 32
stop vol lose
create vol 0 40 snapshot-origin base
create snap 0 40 snapshot base cow P 1
status snap
read snap 0 40
read vol 0 40
remove snap
remove vol
remove base
remove cow
disk base 40
disk cow 40
create vol 0 40 snapshot-origin base
write vol 0 20480*11
create snap 0 40 snapshot base cow P 1
write vol 0 15872*aa
start vol write 31 512*bb
start vol write 32 512*cc
step vol copy-read 32
step vol copy-write 32
step vol flush-store snap
stop vol lose
create vol 0 40 snapshot-origin base
create snap 0 40 snapshot base cow P 1
status snap
read snap 0 40
read vol 0 40
remove snap
remove vol
remove base
remove cow
disk base 40
disk cow 40
create vol 0 40 snapshot-origin base
write vol 0 20480*11
create snap 0 40 snapshot base cow P 1
write vol 0 15872*aa
start vol write 31 512*bb
start vol write 32 512*cc
step vol copy-read 32
step vol copy-write 32
step vol flush-store snap
step vol zero-next snap
stop vol lose
create vol 0 40 snapshot-origin base
create snap 0 40 snapshot base cow P 1
status snap
read snap 0 40
read vol 0 40
remove snap
remove vol
remove base
remove cow
disk base 40
disk cow 40
create vol 0 40 snapshot-origin base
write vol 0 20480*11
create snap 0 40 snapshot base cow P 1
write vol 0 15872*aa
start vol write 31 512*bb
start vol write 32 512*cc
step vol copy-read 32
step vol copy-write 32
step vol flush-store snap
step vol zero-next snap
step vol flush-store snap
stop vol lose
create vol 0 40 snapshot-origin base
create snap 0 40 snapshot base cow P 1
status snap
read snap 0 40
read vol 0 40
remove snap
remove vol
remove base
remove cow
disk base 40
disk cow 40
create vol 0 40 snapshot-origin base
write vol 0 20480*11
create snap 0 40 snapshot base cow P 1
write vol 0 15872*aa
start vol write 31 512*bb
start vol write 32 512*cc
step vol copy-read 32
step vol copy-write 32
step vol flush-store snap
step vol zero-next snap
step vol flush-store snap
step vol write-area snap
stop vol lose
create vol 0 40 snapshot-origin base
create snap 0 40 snapshot base cow P 1
status snap
read snap 0 40
read vol 0 40
remove snap
remove vol
remove base
remove cow
disk base 40
disk cow 40
create vol 0 40 snapshot-origin base
write vol 0 20480*11
create snap 0 40 snapshot base cow P 1
write vol 0 15872*aa
start vol write 31 512*bb
start vol write 32 512*cc
step vol copy-read 32
step vol copy-write 32
step vol flush-store snap
step vol zero-next snap
step vol flush-store snap
step vol write-area snap
step vol flush-store snap
stop vol lose
create vol 0 40 snapshot-origin base
create snap 0 40 snapshot base cow P 1
status snap
read snap 0 40
read vol 0 40
remove snap
remove vol
remove base
remove cow
disk base 40
disk cow 40
create vol 0 40 snapshot-origin base
write vol 0 20480*11
create snap 0 40 snapshot base cow P 1
write vol 0 15872*aa
start vol write 31 512*bb
start vol write 32 512*cc
step vol copy-read 32
step vol copy-write 32
step vol flush-store snap
step vol zero-next snap
step vol flush-store snap
step vol write-area snap
step vol flush-store snap
step vol publish 32
stop vol lose
create vol 0 40 snapshot-origin base
create snap 0 40 snapshot base cow P 1
status snap
read snap 0 40
read vol 0 40
remove snap
remove vol
remove base
remove cow
disk base 40
disk cow 40
create vol 0 40 snapshot-origin base
write vol 0 20480*11
create snap 0 40 snapshot base cow P 1
write vol 0 15872*aa
start vol write 31 512*bb
start vol write 32 512*cc
step vol copy-read 32
step vol copy-write 32
step vol flush-store snap
step vol zero-next snap
step vol flush-store snap
step vol write-area snap
step vol flush-store snap
step vol publish 32
step vol copy-read 33
stop vol lose
create vol 0 40 snapshot-origin base
create snap 0 40 snapshot base cow P 1
status snap
read snap 0 40
read vol 0 40
remove snap
remove vol
remove base
remove cow
disk base 40
disk cow 40
create vol 0 40 snapshot-origin base
write vol 0 20480*11
create snap 0 40 snapshot base cow P 1
write vol 0 15872*aa
start vol write 31 512*bb
start vol write 32 512*cc
step vol copy-read 32
step vol copy-write 32
step vol flush-store snap
step vol zero-next snap
step vol flush-store snap
step vol write-area snap
step vol flush-store snap
step vol publish 32
step vol copy-read 33
step vol copy-write 33
stop vol lose
create vol 0 40 snapshot-origin base
create snap 0 40 snapshot base cow P 1
status snap
read snap 0 40
read vol 0 40
remove snap
remove vol
remove base
remove cow
disk base 40
disk cow 40
create vol 0 40 snapshot-origin base
write vol 0 20480*11
create snap 0 40 snapshot base cow P 1
write vol 0 15872*aa
start vol write 31 512*bb
start vol write 32 512*cc
step vol copy-read 32
step vol copy-write 32
step vol flush-store snap
step vol zero-next snap
step vol flush-store snap
step vol write-area snap
step vol flush-store snap
step vol publish 32
step vol copy-read 33
step vol copy-write 33
step vol flush-store snap
stop vol lose
create vol 0 40 snapshot-origin base
create snap 0 40 snapshot base cow P 1
status snap
read snap 0 40
read vol 0 40
remove snap
remove vol
remove base
remove cow
disk base 40
disk cow 40
create vol 0 40 snapshot-origin base
write vol 0 20480*11
create snap 0 40 snapshot base cow P 1
write vol 0 15872*aa
start vol write 31 512*bb
start vol write 32 512*cc
step vol copy-read 32
step vol copy-write 32
step vol flush-store snap
step vol zero-next snap
step vol flush-store snap
step vol write-area snap
step vol flush-store snap
step vol publish 32
step vol copy-read 33
step vol copy-write 33
step vol flush-store snap
step vol write-area snap
stop vol lose
create vol 0 40 snapshot-origin base
create snap 0 40 snapshot base cow P 1
status snap
read snap 0 40
read vol 0 40
remove snap
remove vol
remove base
remove cow
disk base 40
disk cow 40
create vol 0 40 snapshot-origin base
write vol 0 20480*11
create snap 0 40 snapshot base cow P 1
write vol 0 15872*aa
start vol write 31 512*bb
start vol write 32 512*cc
step vol copy-read 32
step vol copy-write 32
step vol flush-store snap
step vol zero-next snap
step vol flush-store snap
step vol write-area snap
step vol flush-store snap
step vol publish 32
step vol copy-read 33
step vol copy-write 33
step vol flush-store snap
step vol write-area snap
step vol flush-store snap
stop vol lose
create vol 0 40 snapshot-origin base
create snap 0 40 snapshot base cow P 1
status snap
read snap 0 40
read vol 0 40
remove snap
remove vol
remove base
remove cow
disk base 40
disk cow 40
create vol 0 40 snapshot-origin base
write vol 0 20480*11
create snap 0 40 snapshot base cow P 1
write vol 0 15872*aa
start vol write 31 512*bb
start vol write 32 512*cc
step vol copy-read 32
step vol copy-write 32
step vol flush-store snap
step vol zero-next snap
step vol flush-store snap
step vol write-area snap
step vol flush-store snap
step vol publish 32
step vol copy-read 33
step vol copy-write 33
step vol flush-store snap
step vol write-area snap
step vol flush-store snap
step vol publish 33
stop vol lose
create vol 0 40 snapshot-origin base
create snap 0 40 snapshot base cow P 1
status snap
read snap 0 40
read vol 0 40
remove snap
remove vol
remove base
remove cow
disk base 40
disk cow 40
create vol 0 40 snapshot-origin base
write vol 0 20480*11
create snap 0 40 snapshot base cow P 1
write vol 0 15872*aa
start vol write 31 512*bb
start vol write 32 512*cc
step vol copy-read 32
step vol copy-write 32
step vol flush-store snap
step vol zero-next snap
step vol flush-store snap
step vol write-area snap
step vol flush-store snap
step vol publish 32
step vol copy-read 33
step vol copy-write 33
step vol flush-store snap
step vol write-area snap
step vol flush-store snap
step vol publish 33
step vol issue 33
stop vol lose
create vol 0 40 snapshot-origin base
create snap 0 40 snapshot base cow P 1
status snap
read snap 0 40
read vol 0 40
remove snap
remove vol
remove base
remove cow
disk base 40
disk cow 40
create vol 0 40 snapshot-origin base
write vol 0 20480*11
create snap 0 40 snapshot base cow P 1
write vol 0 15872*aa
start vol write 31 512*bb
start vol write 32 512*cc
step vol copy-read 32
step vol copy-write 32
step vol flush-store snap
step vol zero-next snap
step vol flush-store snap
step vol write-area snap
step vol flush-store snap
step vol publish 32
step vol copy-read 33
step vol copy-write 33
step vol flush-store snap
step vol write-area snap
step vol flush-store snap
step vol publish 33
step vol issue 33
step vol issue 34
stop vol lose
create vol 0 40 snapshot-origin base
create snap 0 40 snapshot base cow P 1
status snap
read snap 0 40
read vol 0 40
remove snap
remove vol
remove base
remove cow
