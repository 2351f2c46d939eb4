# Stopped after each event of two writes whose pairs are committed together: both pairs are there, or none.
# By the admin-guide page on snapshots and the persistent store's format; that a volume is stopped by a command is this project's.
disk base 128
disk cow 64
create vol 0 128 snapshot-origin base
write vol 0 65536*11
create snap 0 128 snapshot base cow P 1
stop vol
create vol 0 128 snapshot-origin base
create snap 0 128 snapshot base cow P 1
status snap
read snap 0 128
read vol 0 128
remove snap
remove vol
remove base
remove cow
disk base 128
disk cow 64
create vol 0 128 snapshot-origin base
write vol 0 65536*11
create snap 0 128 snapshot base cow P 1
start vol write 5 512*aa
stop vol
create vol 0 128 snapshot-origin base
create snap 0 128 snapshot base cow P 1
status snap
read snap 0 128
read vol 0 128
remove snap
remove vol
remove base
remove cow
disk base 128
disk cow 64
create vol 0 128 snapshot-origin base
write vol 0 65536*11
create snap 0 128 snapshot base cow P 1
start vol write 5 512*aa
start vol write 6 512*bb
stop vol
create vol 0 128 snapshot-origin base
create snap 0 128 snapshot base cow P 1
status snap
read snap 0 128
read vol 0 128
remove snap
remove vol
remove base
remove cow
disk base 128
disk cow 64
create vol 0 128 snapshot-origin base
write vol 0 65536*11
create snap 0 128 snapshot base cow P 1
start vol write 5 512*aa
start vol write 6 512*bb
step vol copy-read 1
stop vol
create vol 0 128 snapshot-origin base
create snap 0 128 snapshot base cow P 1
status snap
read snap 0 128
read vol 0 128
remove snap
remove vol
remove base
remove cow
disk base 128
disk cow 64
create vol 0 128 snapshot-origin base
write vol 0 65536*11
create snap 0 128 snapshot base cow P 1
start vol write 5 512*aa
start vol write 6 512*bb
step vol copy-read 1
step vol copy-read 2
stop vol
create vol 0 128 snapshot-origin base
create snap 0 128 snapshot base cow P 1
status snap
read snap 0 128
read vol 0 128
remove snap
remove vol
remove base
remove cow
disk base 128
disk cow 64
create vol 0 128 snapshot-origin base
write vol 0 65536*11
create snap 0 128 snapshot base cow P 1
start vol write 5 512*aa
start vol write 6 512*bb
step vol copy-read 1
step vol copy-read 2
step vol copy-write 2
stop vol
create vol 0 128 snapshot-origin base
create snap 0 128 snapshot base cow P 1
status snap
read snap 0 128
read vol 0 128
remove snap
remove vol
remove base
remove cow
disk base 128
disk cow 64
create vol 0 128 snapshot-origin base
write vol 0 65536*11
create snap 0 128 snapshot base cow P 1
start vol write 5 512*aa
start vol write 6 512*bb
step vol copy-read 1
step vol copy-read 2
step vol copy-write 2
step vol copy-write 1
stop vol
create vol 0 128 snapshot-origin base
create snap 0 128 snapshot base cow P 1
status snap
read snap 0 128
read vol 0 128
remove snap
remove vol
remove base
remove cow
disk base 128
disk cow 64
create vol 0 128 snapshot-origin base
write vol 0 65536*11
create snap 0 128 snapshot base cow P 1
start vol write 5 512*aa
start vol write 6 512*bb
step vol copy-read 1
step vol copy-read 2
step vol copy-write 2
step vol copy-write 1
step vol flush-store snap
stop vol
create vol 0 128 snapshot-origin base
create snap 0 128 snapshot base cow P 1
status snap
read snap 0 128
read vol 0 128
remove snap
remove vol
remove base
remove cow
disk base 128
disk cow 64
create vol 0 128 snapshot-origin base
write vol 0 65536*11
create snap 0 128 snapshot base cow P 1
start vol write 5 512*aa
start vol write 6 512*bb
step vol copy-read 1
step vol copy-read 2
step vol copy-write 2
step vol copy-write 1
step vol flush-store snap
step vol write-area snap
stop vol
create vol 0 128 snapshot-origin base
create snap 0 128 snapshot base cow P 1
status snap
read snap 0 128
read vol 0 128
remove snap
remove vol
remove base
remove cow
disk base 128
disk cow 64
create vol 0 128 snapshot-origin base
write vol 0 65536*11
create snap 0 128 snapshot base cow P 1
start vol write 5 512*aa
start vol write 6 512*bb
step vol copy-read 1
step vol copy-read 2
step vol copy-write 2
step vol copy-write 1
step vol flush-store snap
step vol write-area snap
step vol flush-store snap
stop vol
create vol 0 128 snapshot-origin base
create snap 0 128 snapshot base cow P 1
status snap
read snap 0 128
read vol 0 128
remove snap
remove vol
remove base
remove cow
disk base 128
disk cow 64
create vol 0 128 snapshot-origin base
write vol 0 65536*11
create snap 0 128 snapshot base cow P 1
start vol write 5 512*aa
start vol write 6 512*bb
step vol copy-read 1
step vol copy-read 2
step vol copy-write 2
step vol copy-write 1
step vol flush-store snap
step vol write-area snap
step vol flush-store snap
step vol publish 1
stop vol
create vol 0 128 snapshot-origin base
create snap 0 128 snapshot base cow P 1
status snap
read snap 0 128
read vol 0 128
remove snap
remove vol
remove base
remove cow
disk base 128
disk cow 64
create vol 0 128 snapshot-origin base
write vol 0 65536*11
create snap 0 128 snapshot base cow P 1
start vol write 5 512*aa
start vol write 6 512*bb
step vol copy-read 1
step vol copy-read 2
step vol copy-write 2
step vol copy-write 1
step vol flush-store snap
step vol write-area snap
step vol flush-store snap
step vol publish 1
step vol publish 2
stop vol
create vol 0 128 snapshot-origin base
create snap 0 128 snapshot base cow P 1
status snap
read snap 0 128
read vol 0 128
remove snap
remove vol
remove base
remove cow
disk base 128
disk cow 64
create vol 0 128 snapshot-origin base
write vol 0 65536*11
create snap 0 128 snapshot base cow P 1
start vol write 5 512*aa
start vol write 6 512*bb
step vol copy-read 1
step vol copy-read 2
step vol copy-write 2
step vol copy-write 1
step vol flush-store snap
step vol write-area snap
step vol flush-store snap
step vol publish 1
step vol publish 2
step vol issue 2
stop vol
create vol 0 128 snapshot-origin base
create snap 0 128 snapshot base cow P 1
status snap
read snap 0 128
read vol 0 128
remove snap
remove vol
remove base
remove cow
disk base 128
disk cow 64
create vol 0 128 snapshot-origin base
write vol 0 65536*11
create snap 0 128 snapshot base cow P 1
start vol write 5 512*aa
start vol write 6 512*bb
step vol copy-read 1
step vol copy-read 2
step vol copy-write 2
step vol copy-write 1
step vol flush-store snap
step vol write-area snap
step vol flush-store snap
step vol publish 1
step vol publish 2
step vol issue 2
step vol issue 3
stop vol
create vol 0 128 snapshot-origin base
create snap 0 128 snapshot base cow P 1
status snap
read snap 0 128
read vol 0 128
remove snap
remove vol
remove base
remove cow
