# Stopped after each event of the writes that fill a store's first area and begin its second: loaded again, it has the pairs
# that were committed, and the snapshot shows what it showed.
# By the admin-guide page on snapshots and the persistent store's format; that a volume is stopped by a command is this project's.
disk base 128
disk cow 64
create vol 0 128 snapshot-origin base
write vol 0 65536*11
create snap 0 128 snapshot base cow P 1
write vol 0 8192*aa
start vol write 16 512*aa
stop vol
create vol 0 128 snapshot-origin base
create snap 0 128 snapshot base cow P 1
status snap
read snap 0 128
read vol 0 128
remove snap
remove vol
remove base
remove cow
disk base 128
disk cow 64
create vol 0 128 snapshot-origin base
write vol 0 65536*11
create snap 0 128 snapshot base cow P 1
write vol 0 8192*aa
start vol write 16 512*aa
step vol copy-read 17
stop vol
create vol 0 128 snapshot-origin base
create snap 0 128 snapshot base cow P 1
status snap
read snap 0 128
read vol 0 128
remove snap
remove vol
remove base
remove cow
disk base 128
disk cow 64
create vol 0 128 snapshot-origin base
write vol 0 65536*11
create snap 0 128 snapshot base cow P 1
write vol 0 8192*aa
start vol write 16 512*aa
step vol copy-read 17
step vol copy-write 17
stop vol
create vol 0 128 snapshot-origin base
create snap 0 128 snapshot base cow P 1
status snap
read snap 0 128
read vol 0 128
remove snap
remove vol
remove base
remove cow
disk base 128
disk cow 64
create vol 0 128 snapshot-origin base
write vol 0 65536*11
create snap 0 128 snapshot base cow P 1
write vol 0 8192*aa
start vol write 16 512*aa
step vol copy-read 17
step vol copy-write 17
step vol flush-store snap
stop vol
create vol 0 128 snapshot-origin base
create snap 0 128 snapshot base cow P 1
status snap
read snap 0 128
read vol 0 128
remove snap
remove vol
remove base
remove cow
disk base 128
disk cow 64
create vol 0 128 snapshot-origin base
write vol 0 65536*11
create snap 0 128 snapshot base cow P 1
write vol 0 8192*aa
start vol write 16 512*aa
step vol copy-read 17
step vol copy-write 17
step vol flush-store snap
step vol write-area snap
stop vol
create vol 0 128 snapshot-origin base
create snap 0 128 snapshot base cow P 1
status snap
read snap 0 128
read vol 0 128
remove snap
remove vol
remove base
remove cow
disk base 128
disk cow 64
create vol 0 128 snapshot-origin base
write vol 0 65536*11
create snap 0 128 snapshot base cow P 1
write vol 0 8192*aa
start vol write 16 512*aa
step vol copy-read 17
step vol copy-write 17
step vol flush-store snap
step vol write-area snap
step vol flush-store snap
stop vol
create vol 0 128 snapshot-origin base
create snap 0 128 snapshot base cow P 1
status snap
read snap 0 128
read vol 0 128
remove snap
remove vol
remove base
remove cow
disk base 128
disk cow 64
create vol 0 128 snapshot-origin base
write vol 0 65536*11
create snap 0 128 snapshot base cow P 1
write vol 0 8192*aa
start vol write 16 512*aa
step vol copy-read 17
step vol copy-write 17
step vol flush-store snap
step vol write-area snap
step vol flush-store snap
step vol publish 17
stop vol
create vol 0 128 snapshot-origin base
create snap 0 128 snapshot base cow P 1
status snap
read snap 0 128
read vol 0 128
remove snap
remove vol
remove base
remove cow
disk base 128
disk cow 64
create vol 0 128 snapshot-origin base
write vol 0 65536*11
create snap 0 128 snapshot base cow P 1
write vol 0 8192*aa
start vol write 16 512*aa
step vol copy-read 17
step vol copy-write 17
step vol flush-store snap
step vol write-area snap
step vol flush-store snap
step vol publish 17
step vol issue 18
stop vol
create vol 0 128 snapshot-origin base
create snap 0 128 snapshot base cow P 1
status snap
read snap 0 128
read vol 0 128
remove snap
remove vol
remove base
remove cow
disk base 128
disk cow 64
create vol 0 128 snapshot-origin base
write vol 0 65536*11
create snap 0 128 snapshot base cow P 1
write vol 0 8704*aa
start vol write 17 512*aa
stop vol
create vol 0 128 snapshot-origin base
create snap 0 128 snapshot base cow P 1
status snap
read snap 0 128
read vol 0 128
remove snap
remove vol
remove base
remove cow
disk base 128
disk cow 64
create vol 0 128 snapshot-origin base
write vol 0 65536*11
create snap 0 128 snapshot base cow P 1
write vol 0 8704*aa
start vol write 17 512*aa
step vol copy-read 18
stop vol
create vol 0 128 snapshot-origin base
create snap 0 128 snapshot base cow P 1
status snap
read snap 0 128
read vol 0 128
remove snap
remove vol
remove base
remove cow
disk base 128
disk cow 64
create vol 0 128 snapshot-origin base
write vol 0 65536*11
create snap 0 128 snapshot base cow P 1
write vol 0 8704*aa
start vol write 17 512*aa
step vol copy-read 18
step vol copy-write 18
stop vol
create vol 0 128 snapshot-origin base
create snap 0 128 snapshot base cow P 1
status snap
read snap 0 128
read vol 0 128
remove snap
remove vol
remove base
remove cow
disk base 128
disk cow 64
create vol 0 128 snapshot-origin base
write vol 0 65536*11
create snap 0 128 snapshot base cow P 1
write vol 0 8704*aa
start vol write 17 512*aa
step vol copy-read 18
step vol copy-write 18
step vol flush-store snap
stop vol
create vol 0 128 snapshot-origin base
create snap 0 128 snapshot base cow P 1
status snap
read snap 0 128
read vol 0 128
remove snap
remove vol
remove base
remove cow
disk base 128
disk cow 64
create vol 0 128 snapshot-origin base
write vol 0 65536*11
create snap 0 128 snapshot base cow P 1
write vol 0 8704*aa
start vol write 17 512*aa
step vol copy-read 18
step vol copy-write 18
step vol flush-store snap
step vol write-area snap
stop vol
create vol 0 128 snapshot-origin base
create snap 0 128 snapshot base cow P 1
status snap
read snap 0 128
read vol 0 128
remove snap
remove vol
remove base
remove cow
disk base 128
disk cow 64
create vol 0 128 snapshot-origin base
write vol 0 65536*11
create snap 0 128 snapshot base cow P 1
write vol 0 8704*aa
start vol write 17 512*aa
step vol copy-read 18
step vol copy-write 18
step vol flush-store snap
step vol write-area snap
step vol flush-store snap
stop vol
create vol 0 128 snapshot-origin base
create snap 0 128 snapshot base cow P 1
status snap
read snap 0 128
read vol 0 128
remove snap
remove vol
remove base
remove cow
disk base 128
disk cow 64
create vol 0 128 snapshot-origin base
write vol 0 65536*11
create snap 0 128 snapshot base cow P 1
write vol 0 8704*aa
start vol write 17 512*aa
step vol copy-read 18
step vol copy-write 18
step vol flush-store snap
step vol write-area snap
step vol flush-store snap
step vol publish 18
stop vol
create vol 0 128 snapshot-origin base
create snap 0 128 snapshot base cow P 1
status snap
read snap 0 128
read vol 0 128
remove snap
remove vol
remove base
remove cow
disk base 128
disk cow 64
create vol 0 128 snapshot-origin base
write vol 0 65536*11
create snap 0 128 snapshot base cow P 1
write vol 0 8704*aa
start vol write 17 512*aa
step vol copy-read 18
step vol copy-write 18
step vol flush-store snap
step vol write-area snap
step vol flush-store snap
step vol publish 18
step vol issue 19
stop vol
create vol 0 128 snapshot-origin base
create snap 0 128 snapshot base cow P 1
status snap
read snap 0 128
read vol 0 128
remove snap
remove vol
remove base
remove cow
disk base 128
disk cow 64
create vol 0 128 snapshot-origin base
write vol 0 65536*11
create snap 0 128 snapshot base cow P 1
write vol 0 9216*aa
start vol write 18 512*aa
stop vol
create vol 0 128 snapshot-origin base
create snap 0 128 snapshot base cow P 1
status snap
read snap 0 128
read vol 0 128
remove snap
remove vol
remove base
remove cow
disk base 128
disk cow 64
create vol 0 128 snapshot-origin base
write vol 0 65536*11
create snap 0 128 snapshot base cow P 1
write vol 0 9216*aa
start vol write 18 512*aa
step vol copy-read 19
stop vol
create vol 0 128 snapshot-origin base
create snap 0 128 snapshot base cow P 1
status snap
read snap 0 128
read vol 0 128
remove snap
remove vol
remove base
remove cow
disk base 128
disk cow 64
create vol 0 128 snapshot-origin base
write vol 0 65536*11
create snap 0 128 snapshot base cow P 1
write vol 0 9216*aa
start vol write 18 512*aa
step vol copy-read 19
step vol copy-write 19
stop vol
create vol 0 128 snapshot-origin base
create snap 0 128 snapshot base cow P 1
status snap
read snap 0 128
read vol 0 128
remove snap
remove vol
remove base
remove cow
disk base 128
disk cow 64
create vol 0 128 snapshot-origin base
write vol 0 65536*11
create snap 0 128 snapshot base cow P 1
write vol 0 9216*aa
start vol write 18 512*aa
step vol copy-read 19
step vol copy-write 19
step vol flush-store snap
stop vol
create vol 0 128 snapshot-origin base
create snap 0 128 snapshot base cow P 1
status snap
read snap 0 128
read vol 0 128
remove snap
remove vol
remove base
remove cow
disk base 128
disk cow 64
create vol 0 128 snapshot-origin base
write vol 0 65536*11
create snap 0 128 snapshot base cow P 1
write vol 0 9216*aa
start vol write 18 512*aa
step vol copy-read 19
step vol copy-write 19
step vol flush-store snap
step vol write-area snap
stop vol
create vol 0 128 snapshot-origin base
create snap 0 128 snapshot base cow P 1
status snap
read snap 0 128
read vol 0 128
remove snap
remove vol
remove base
remove cow
disk base 128
disk cow 64
create vol 0 128 snapshot-origin base
write vol 0 65536*11
create snap 0 128 snapshot base cow P 1
write vol 0 9216*aa
start vol write 18 512*aa
step vol copy-read 19
step vol copy-write 19
step vol flush-store snap
step vol write-area snap
step vol flush-store snap
stop vol
create vol 0 128 snapshot-origin base
create snap 0 128 snapshot base cow P 1
status snap
read snap 0 128
read vol 0 128
remove snap
remove vol
remove base
remove cow
disk base 128
disk cow 64
create vol 0 128 snapshot-origin base
write vol 0 65536*11
create snap 0 128 snapshot base cow P 1
write vol 0 9216*aa
start vol write 18 512*aa
step vol copy-read 19
step vol copy-write 19
step vol flush-store snap
step vol write-area snap
step vol flush-store snap
step vol publish 19
stop vol
create vol 0 128 snapshot-origin base
create snap 0 128 snapshot base cow P 1
status snap
read snap 0 128
read vol 0 128
remove snap
remove vol
remove base
remove cow
disk base 128
disk cow 64
create vol 0 128 snapshot-origin base
write vol 0 65536*11
create snap 0 128 snapshot base cow P 1
write vol 0 9216*aa
start vol write 18 512*aa
step vol copy-read 19
step vol copy-write 19
step vol flush-store snap
step vol write-area snap
step vol flush-store snap
step vol publish 19
step vol issue 20
stop vol
create vol 0 128 snapshot-origin base
create snap 0 128 snapshot base cow P 1
status snap
read snap 0 128
read vol 0 128
remove snap
remove vol
remove base
remove cow
disk base 128
disk cow 64
create vol 0 128 snapshot-origin base
write vol 0 65536*11
create snap 0 128 snapshot base cow P 1
write vol 0 9728*aa
start vol write 19 512*aa
stop vol
create vol 0 128 snapshot-origin base
create snap 0 128 snapshot base cow P 1
status snap
read snap 0 128
read vol 0 128
remove snap
remove vol
remove base
remove cow
disk base 128
disk cow 64
create vol 0 128 snapshot-origin base
write vol 0 65536*11
create snap 0 128 snapshot base cow P 1
write vol 0 9728*aa
start vol write 19 512*aa
step vol copy-read 20
stop vol
create vol 0 128 snapshot-origin base
create snap 0 128 snapshot base cow P 1
status snap
read snap 0 128
read vol 0 128
remove snap
remove vol
remove base
remove cow
disk base 128
disk cow 64
create vol 0 128 snapshot-origin base
write vol 0 65536*11
create snap 0 128 snapshot base cow P 1
write vol 0 9728*aa
start vol write 19 512*aa
step vol copy-read 20
step vol copy-write 20
stop vol
create vol 0 128 snapshot-origin base
create snap 0 128 snapshot base cow P 1
status snap
read snap 0 128
read vol 0 128
remove snap
remove vol
remove base
remove cow
disk base 128
disk cow 64
create vol 0 128 snapshot-origin base
write vol 0 65536*11
create snap 0 128 snapshot base cow P 1
write vol 0 9728*aa
start vol write 19 512*aa
step vol copy-read 20
step vol copy-write 20
step vol flush-store snap
stop vol
create vol 0 128 snapshot-origin base
create snap 0 128 snapshot base cow P 1
status snap
read snap 0 128
read vol 0 128
remove snap
remove vol
remove base
remove cow
disk base 128
disk cow 64
create vol 0 128 snapshot-origin base
write vol 0 65536*11
create snap 0 128 snapshot base cow P 1
write vol 0 9728*aa
start vol write 19 512*aa
step vol copy-read 20
step vol copy-write 20
step vol flush-store snap
step vol write-area snap
stop vol
create vol 0 128 snapshot-origin base
create snap 0 128 snapshot base cow P 1
status snap
read snap 0 128
read vol 0 128
remove snap
remove vol
remove base
remove cow
disk base 128
disk cow 64
create vol 0 128 snapshot-origin base
write vol 0 65536*11
create snap 0 128 snapshot base cow P 1
write vol 0 9728*aa
start vol write 19 512*aa
step vol copy-read 20
step vol copy-write 20
step vol flush-store snap
step vol write-area snap
step vol flush-store snap
stop vol
create vol 0 128 snapshot-origin base
create snap 0 128 snapshot base cow P 1
status snap
read snap 0 128
read vol 0 128
remove snap
remove vol
remove base
remove cow
disk base 128
disk cow 64
create vol 0 128 snapshot-origin base
write vol 0 65536*11
create snap 0 128 snapshot base cow P 1
write vol 0 9728*aa
start vol write 19 512*aa
step vol copy-read 20
step vol copy-write 20
step vol flush-store snap
step vol write-area snap
step vol flush-store snap
step vol publish 20
stop vol
create vol 0 128 snapshot-origin base
create snap 0 128 snapshot base cow P 1
status snap
read snap 0 128
read vol 0 128
remove snap
remove vol
remove base
remove cow
disk base 128
disk cow 64
create vol 0 128 snapshot-origin base
write vol 0 65536*11
create snap 0 128 snapshot base cow P 1
write vol 0 9728*aa
start vol write 19 512*aa
step vol copy-read 20
step vol copy-write 20
step vol flush-store snap
step vol write-area snap
step vol flush-store snap
step vol publish 20
step vol issue 21
stop vol
create vol 0 128 snapshot-origin base
create snap 0 128 snapshot base cow P 1
status snap
read snap 0 128
read vol 0 128
remove snap
remove vol
remove base
remove cow
disk base 128
disk cow 64
create vol 0 128 snapshot-origin base
write vol 0 65536*11
create snap 0 128 snapshot base cow P 1
write vol 0 10240*aa
start vol write 20 512*aa
stop vol
create vol 0 128 snapshot-origin base
create snap 0 128 snapshot base cow P 1
status snap
read snap 0 128
read vol 0 128
remove snap
remove vol
remove base
remove cow
disk base 128
disk cow 64
create vol 0 128 snapshot-origin base
write vol 0 65536*11
create snap 0 128 snapshot base cow P 1
write vol 0 10240*aa
start vol write 20 512*aa
step vol copy-read 21
stop vol
create vol 0 128 snapshot-origin base
create snap 0 128 snapshot base cow P 1
status snap
read snap 0 128
read vol 0 128
remove snap
remove vol
remove base
remove cow
disk base 128
disk cow 64
create vol 0 128 snapshot-origin base
write vol 0 65536*11
create snap 0 128 snapshot base cow P 1
write vol 0 10240*aa
start vol write 20 512*aa
step vol copy-read 21
step vol copy-write 21
stop vol
create vol 0 128 snapshot-origin base
create snap 0 128 snapshot base cow P 1
status snap
read snap 0 128
read vol 0 128
remove snap
remove vol
remove base
remove cow
disk base 128
disk cow 64
create vol 0 128 snapshot-origin base
write vol 0 65536*11
create snap 0 128 snapshot base cow P 1
write vol 0 10240*aa
start vol write 20 512*aa
step vol copy-read 21
step vol copy-write 21
step vol flush-store snap
stop vol
create vol 0 128 snapshot-origin base
create snap 0 128 snapshot base cow P 1
status snap
read snap 0 128
read vol 0 128
remove snap
remove vol
remove base
remove cow
disk base 128
disk cow 64
create vol 0 128 snapshot-origin base
write vol 0 65536*11
create snap 0 128 snapshot base cow P 1
write vol 0 10240*aa
start vol write 20 512*aa
step vol copy-read 21
step vol copy-write 21
step vol flush-store snap
step vol write-area snap
stop vol
create vol 0 128 snapshot-origin base
create snap 0 128 snapshot base cow P 1
status snap
read snap 0 128
read vol 0 128
remove snap
remove vol
remove base
remove cow
disk base 128
disk cow 64
create vol 0 128 snapshot-origin base
write vol 0 65536*11
create snap 0 128 snapshot base cow P 1
write vol 0 10240*aa
start vol write 20 512*aa
step vol copy-read 21
step vol copy-write 21
step vol flush-store snap
step vol write-area snap
step vol flush-store snap
stop vol
create vol 0 128 snapshot-origin base
create snap 0 128 snapshot base cow P 1
status snap
read snap 0 128
read vol 0 128
remove snap
remove vol
remove base
remove cow
disk base 128
disk cow 64
create vol 0 128 snapshot-origin base
write vol 0 65536*11
create snap 0 128 snapshot base cow P 1
write vol 0 10240*aa
start vol write 20 512*aa
step vol copy-read 21
step vol copy-write 21
step vol flush-store snap
step vol write-area snap
step vol flush-store snap
step vol publish 21
stop vol
create vol 0 128 snapshot-origin base
create snap 0 128 snapshot base cow P 1
status snap
read snap 0 128
read vol 0 128
remove snap
remove vol
remove base
remove cow
disk base 128
disk cow 64
create vol 0 128 snapshot-origin base
write vol 0 65536*11
create snap 0 128 snapshot base cow P 1
write vol 0 10240*aa
start vol write 20 512*aa
step vol copy-read 21
step vol copy-write 21
step vol flush-store snap
step vol write-area snap
step vol flush-store snap
step vol publish 21
step vol issue 22
stop vol
create vol 0 128 snapshot-origin base
create snap 0 128 snapshot base cow P 1
status snap
read snap 0 128
read vol 0 128
remove snap
remove vol
remove base
remove cow
disk base 128
disk cow 64
create vol 0 128 snapshot-origin base
write vol 0 65536*11
create snap 0 128 snapshot base cow P 1
write vol 0 10752*aa
start vol write 21 512*aa
stop vol
create vol 0 128 snapshot-origin base
create snap 0 128 snapshot base cow P 1
status snap
read snap 0 128
read vol 0 128
remove snap
remove vol
remove base
remove cow
disk base 128
disk cow 64
create vol 0 128 snapshot-origin base
write vol 0 65536*11
create snap 0 128 snapshot base cow P 1
write vol 0 10752*aa
start vol write 21 512*aa
step vol copy-read 22
stop vol
create vol 0 128 snapshot-origin base
create snap 0 128 snapshot base cow P 1
status snap
read snap 0 128
read vol 0 128
remove snap
remove vol
remove base
remove cow
disk base 128
disk cow 64
create vol 0 128 snapshot-origin base
write vol 0 65536*11
create snap 0 128 snapshot base cow P 1
write vol 0 10752*aa
start vol write 21 512*aa
step vol copy-read 22
step vol copy-write 22
stop vol
create vol 0 128 snapshot-origin base
create snap 0 128 snapshot base cow P 1
status snap
read snap 0 128
read vol 0 128
remove snap
remove vol
remove base
remove cow
disk base 128
disk cow 64
create vol 0 128 snapshot-origin base
write vol 0 65536*11
create snap 0 128 snapshot base cow P 1
write vol 0 10752*aa
start vol write 21 512*aa
step vol copy-read 22
step vol copy-write 22
step vol flush-store snap
stop vol
create vol 0 128 snapshot-origin base
create snap 0 128 snapshot base cow P 1
status snap
read snap 0 128
read vol 0 128
remove snap
remove vol
remove base
remove cow
disk base 128
disk cow 64
create vol 0 128 snapshot-origin base
write vol 0 65536*11
create snap 0 128 snapshot base cow P 1
write vol 0 10752*aa
start vol write 21 512*aa
step vol copy-read 22
step vol copy-write 22
step vol flush-store snap
step vol write-area snap
stop vol
create vol 0 128 snapshot-origin base
create snap 0 128 snapshot base cow P 1
status snap
read snap 0 128
read vol 0 128
remove snap
remove vol
remove base
remove cow
disk base 128
disk cow 64
create vol 0 128 snapshot-origin base
write vol 0 65536*11
create snap 0 128 snapshot base cow P 1
write vol 0 10752*aa
start vol write 21 512*aa
step vol copy-read 22
step vol copy-write 22
step vol flush-store snap
step vol write-area snap
step vol flush-store snap
stop vol
create vol 0 128 snapshot-origin base
create snap 0 128 snapshot base cow P 1
status snap
read snap 0 128
read vol 0 128
remove snap
remove vol
remove base
remove cow
disk base 128
disk cow 64
create vol 0 128 snapshot-origin base
write vol 0 65536*11
create snap 0 128 snapshot base cow P 1
write vol 0 10752*aa
start vol write 21 512*aa
step vol copy-read 22
step vol copy-write 22
step vol flush-store snap
step vol write-area snap
step vol flush-store snap
step vol publish 22
stop vol
create vol 0 128 snapshot-origin base
create snap 0 128 snapshot base cow P 1
status snap
read snap 0 128
read vol 0 128
remove snap
remove vol
remove base
remove cow
disk base 128
disk cow 64
create vol 0 128 snapshot-origin base
write vol 0 65536*11
create snap 0 128 snapshot base cow P 1
write vol 0 10752*aa
start vol write 21 512*aa
step vol copy-read 22
step vol copy-write 22
step vol flush-store snap
step vol write-area snap
step vol flush-store snap
step vol publish 22
step vol issue 23
stop vol
create vol 0 128 snapshot-origin base
create snap 0 128 snapshot base cow P 1
status snap
read snap 0 128
read vol 0 128
remove snap
remove vol
remove base
remove cow
disk base 128
disk cow 64
create vol 0 128 snapshot-origin base
write vol 0 65536*11
create snap 0 128 snapshot base cow P 1
write vol 0 11264*aa
start vol write 22 512*aa
stop vol
create vol 0 128 snapshot-origin base
create snap 0 128 snapshot base cow P 1
status snap
read snap 0 128
read vol 0 128
remove snap
remove vol
remove base
remove cow
disk base 128
disk cow 64
create vol 0 128 snapshot-origin base
write vol 0 65536*11
create snap 0 128 snapshot base cow P 1
write vol 0 11264*aa
start vol write 22 512*aa
step vol copy-read 23
stop vol
create vol 0 128 snapshot-origin base
create snap 0 128 snapshot base cow P 1
status snap
read snap 0 128
read vol 0 128
remove snap
remove vol
remove base
remove cow
disk base 128
disk cow 64
create vol 0 128 snapshot-origin base
write vol 0 65536*11
create snap 0 128 snapshot base cow P 1
write vol 0 11264*aa
start vol write 22 512*aa
step vol copy-read 23
step vol copy-write 23
stop vol
create vol 0 128 snapshot-origin base
create snap 0 128 snapshot base cow P 1
status snap
read snap 0 128
read vol 0 128
remove snap
remove vol
remove base
remove cow
disk base 128
disk cow 64
create vol 0 128 snapshot-origin base
write vol 0 65536*11
create snap 0 128 snapshot base cow P 1
write vol 0 11264*aa
start vol write 22 512*aa
step vol copy-read 23
step vol copy-write 23
step vol flush-store snap
stop vol
create vol 0 128 snapshot-origin base
create snap 0 128 snapshot base cow P 1
status snap
read snap 0 128
read vol 0 128
remove snap
remove vol
remove base
remove cow
disk base 128
disk cow 64
create vol 0 128 snapshot-origin base
write vol 0 65536*11
create snap 0 128 snapshot base cow P 1
write vol 0 11264*aa
start vol write 22 512*aa
step vol copy-read 23
step vol copy-write 23
step vol flush-store snap
step vol write-area snap
stop vol
create vol 0 128 snapshot-origin base
create snap 0 128 snapshot base cow P 1
status snap
read snap 0 128
read vol 0 128
remove snap
remove vol
remove base
remove cow
disk base 128
disk cow 64
create vol 0 128 snapshot-origin base
write vol 0 65536*11
create snap 0 128 snapshot base cow P 1
write vol 0 11264*aa
start vol write 22 512*aa
step vol copy-read 23
step vol copy-write 23
step vol flush-store snap
step vol write-area snap
step vol flush-store snap
stop vol
create vol 0 128 snapshot-origin base
create snap 0 128 snapshot base cow P 1
status snap
read snap 0 128
read vol 0 128
remove snap
remove vol
remove base
remove cow
disk base 128
disk cow 64
create vol 0 128 snapshot-origin base
write vol 0 65536*11
create snap 0 128 snapshot base cow P 1
write vol 0 11264*aa
start vol write 22 512*aa
step vol copy-read 23
step vol copy-write 23
step vol flush-store snap
step vol write-area snap
step vol flush-store snap
step vol publish 23
stop vol
create vol 0 128 snapshot-origin base
create snap 0 128 snapshot base cow P 1
status snap
read snap 0 128
read vol 0 128
remove snap
remove vol
remove base
remove cow
disk base 128
disk cow 64
create vol 0 128 snapshot-origin base
write vol 0 65536*11
create snap 0 128 snapshot base cow P 1
write vol 0 11264*aa
start vol write 22 512*aa
step vol copy-read 23
step vol copy-write 23
step vol flush-store snap
step vol write-area snap
step vol flush-store snap
step vol publish 23
step vol issue 24
stop vol
create vol 0 128 snapshot-origin base
create snap 0 128 snapshot base cow P 1
status snap
read snap 0 128
read vol 0 128
remove snap
remove vol
remove base
remove cow
disk base 128
disk cow 64
create vol 0 128 snapshot-origin base
write vol 0 65536*11
create snap 0 128 snapshot base cow P 1
write vol 0 11776*aa
start vol write 23 512*aa
stop vol
create vol 0 128 snapshot-origin base
create snap 0 128 snapshot base cow P 1
status snap
read snap 0 128
read vol 0 128
remove snap
remove vol
remove base
remove cow
disk base 128
disk cow 64
create vol 0 128 snapshot-origin base
write vol 0 65536*11
create snap 0 128 snapshot base cow P 1
write vol 0 11776*aa
start vol write 23 512*aa
step vol copy-read 24
stop vol
create vol 0 128 snapshot-origin base
create snap 0 128 snapshot base cow P 1
status snap
read snap 0 128
read vol 0 128
remove snap
remove vol
remove base
remove cow
disk base 128
disk cow 64
create vol 0 128 snapshot-origin base
write vol 0 65536*11
create snap 0 128 snapshot base cow P 1
write vol 0 11776*aa
start vol write 23 512*aa
step vol copy-read 24
step vol copy-write 24
stop vol
create vol 0 128 snapshot-origin base
create snap 0 128 snapshot base cow P 1
status snap
read snap 0 128
read vol 0 128
remove snap
remove vol
remove base
remove cow
disk base 128
disk cow 64
create vol 0 128 snapshot-origin base
write vol 0 65536*11
create snap 0 128 snapshot base cow P 1
write vol 0 11776*aa
start vol write 23 512*aa
step vol copy-read 24
step vol copy-write 24
step vol flush-store snap
stop vol
create vol 0 128 snapshot-origin base
create snap 0 128 snapshot base cow P 1
status snap
read snap 0 128
read vol 0 128
remove snap
remove vol
remove base
remove cow
disk base 128
disk cow 64
create vol 0 128 snapshot-origin base
write vol 0 65536*11
create snap 0 128 snapshot base cow P 1
write vol 0 11776*aa
start vol write 23 512*aa
step vol copy-read 24
step vol copy-write 24
step vol flush-store snap
step vol write-area snap
stop vol
create vol 0 128 snapshot-origin base
create snap 0 128 snapshot base cow P 1
status snap
read snap 0 128
read vol 0 128
remove snap
remove vol
remove base
remove cow
disk base 128
disk cow 64
create vol 0 128 snapshot-origin base
write vol 0 65536*11
create snap 0 128 snapshot base cow P 1
write vol 0 11776*aa
start vol write 23 512*aa
step vol copy-read 24
step vol copy-write 24
step vol flush-store snap
step vol write-area snap
step vol flush-store snap
stop vol
create vol 0 128 snapshot-origin base
create snap 0 128 snapshot base cow P 1
status snap
read snap 0 128
read vol 0 128
remove snap
remove vol
remove base
remove cow
disk base 128
disk cow 64
create vol 0 128 snapshot-origin base
write vol 0 65536*11
create snap 0 128 snapshot base cow P 1
write vol 0 11776*aa
start vol write 23 512*aa
step vol copy-read 24
step vol copy-write 24
step vol flush-store snap
step vol write-area snap
step vol flush-store snap
step vol publish 24
stop vol
create vol 0 128 snapshot-origin base
create snap 0 128 snapshot base cow P 1
status snap
read snap 0 128
read vol 0 128
remove snap
remove vol
remove base
remove cow
disk base 128
disk cow 64
create vol 0 128 snapshot-origin base
write vol 0 65536*11
create snap 0 128 snapshot base cow P 1
write vol 0 11776*aa
start vol write 23 512*aa
step vol copy-read 24
step vol copy-write 24
step vol flush-store snap
step vol write-area snap
step vol flush-store snap
step vol publish 24
step vol issue 25
stop vol
create vol 0 128 snapshot-origin base
create snap 0 128 snapshot base cow P 1
status snap
read snap 0 128
read vol 0 128
remove snap
remove vol
remove base
remove cow
disk base 128
disk cow 64
create vol 0 128 snapshot-origin base
write vol 0 65536*11
create snap 0 128 snapshot base cow P 1
write vol 0 12288*aa
start vol write 24 512*aa
stop vol
create vol 0 128 snapshot-origin base
create snap 0 128 snapshot base cow P 1
status snap
read snap 0 128
read vol 0 128
remove snap
remove vol
remove base
remove cow
disk base 128
disk cow 64
create vol 0 128 snapshot-origin base
write vol 0 65536*11
create snap 0 128 snapshot base cow P 1
write vol 0 12288*aa
start vol write 24 512*aa
step vol copy-read 25
stop vol
create vol 0 128 snapshot-origin base
create snap 0 128 snapshot base cow P 1
status snap
read snap 0 128
read vol 0 128
remove snap
remove vol
remove base
remove cow
disk base 128
disk cow 64
create vol 0 128 snapshot-origin base
write vol 0 65536*11
create snap 0 128 snapshot base cow P 1
write vol 0 12288*aa
start vol write 24 512*aa
step vol copy-read 25
step vol copy-write 25
stop vol
create vol 0 128 snapshot-origin base
create snap 0 128 snapshot base cow P 1
status snap
read snap 0 128
read vol 0 128
remove snap
remove vol
remove base
remove cow
disk base 128
disk cow 64
create vol 0 128 snapshot-origin base
write vol 0 65536*11
create snap 0 128 snapshot base cow P 1
write vol 0 12288*aa
start vol write 24 512*aa
step vol copy-read 25
step vol copy-write 25
step vol flush-store snap
stop vol
create vol 0 128 snapshot-origin base
create snap 0 128 snapshot base cow P 1
status snap
read snap 0 128
read vol 0 128
remove snap
remove vol
remove base
remove cow
disk base 128
disk cow 64
create vol 0 128 snapshot-origin base
write vol 0 65536*11
create snap 0 128 snapshot base cow P 1
write vol 0 12288*aa
start vol write 24 512*aa
step vol copy-read 25
step vol copy-write 25
step vol flush-store snap
step vol write-area snap
stop vol
create vol 0 128 snapshot-origin base
create snap 0 128 snapshot base cow P 1
status snap
read snap 0 128
read vol 0 128
remove snap
remove vol
remove base
remove cow
disk base 128
disk cow 64
create vol 0 128 snapshot-origin base
write vol 0 65536*11
create snap 0 128 snapshot base cow P 1
write vol 0 12288*aa
start vol write 24 512*aa
step vol copy-read 25
step vol copy-write 25
step vol flush-store snap
step vol write-area snap
step vol flush-store snap
stop vol
create vol 0 128 snapshot-origin base
create snap 0 128 snapshot base cow P 1
status snap
read snap 0 128
read vol 0 128
remove snap
remove vol
remove base
remove cow
disk base 128
disk cow 64
create vol 0 128 snapshot-origin base
write vol 0 65536*11
create snap 0 128 snapshot base cow P 1
write vol 0 12288*aa
start vol write 24 512*aa
step vol copy-read 25
step vol copy-write 25
step vol flush-store snap
step vol write-area snap
step vol flush-store snap
step vol publish 25
stop vol
create vol 0 128 snapshot-origin base
create snap 0 128 snapshot base cow P 1
status snap
read snap 0 128
read vol 0 128
remove snap
remove vol
remove base
remove cow
disk base 128
disk cow 64
create vol 0 128 snapshot-origin base
write vol 0 65536*11
create snap 0 128 snapshot base cow P 1
write vol 0 12288*aa
start vol write 24 512*aa
step vol copy-read 25
step vol copy-write 25
step vol flush-store snap
step vol write-area snap
step vol flush-store snap
step vol publish 25
step vol issue 26
stop vol
create vol 0 128 snapshot-origin base
create snap 0 128 snapshot base cow P 1
status snap
read snap 0 128
read vol 0 128
remove snap
remove vol
remove base
remove cow
disk base 128
disk cow 64
create vol 0 128 snapshot-origin base
write vol 0 65536*11
create snap 0 128 snapshot base cow P 1
write vol 0 12800*aa
start vol write 25 512*aa
stop vol
create vol 0 128 snapshot-origin base
create snap 0 128 snapshot base cow P 1
status snap
read snap 0 128
read vol 0 128
remove snap
remove vol
remove base
remove cow
disk base 128
disk cow 64
create vol 0 128 snapshot-origin base
write vol 0 65536*11
create snap 0 128 snapshot base cow P 1
write vol 0 12800*aa
start vol write 25 512*aa
step vol copy-read 26
stop vol
create vol 0 128 snapshot-origin base
create snap 0 128 snapshot base cow P 1
status snap
read snap 0 128
read vol 0 128
remove snap
remove vol
remove base
remove cow
disk base 128
disk cow 64
create vol 0 128 snapshot-origin base
write vol 0 65536*11
create snap 0 128 snapshot base cow P 1
write vol 0 12800*aa
start vol write 25 512*aa
step vol copy-read 26
step vol copy-write 26
stop vol
create vol 0 128 snapshot-origin base
create snap 0 128 snapshot base cow P 1
status snap
read snap 0 128
read vol 0 128
remove snap
remove vol
remove base
remove cow
disk base 128
disk cow 64
create vol 0 128 snapshot-origin base
write vol 0 65536*11
create snap 0 128 snapshot base cow P 1
write vol 0 12800*aa
start vol write 25 512*aa
step vol copy-read 26
step vol copy-write 26
step vol flush-store snap
stop vol
create vol 0 128 snapshot-origin base
create snap 0 128 snapshot base cow P 1
status snap
read snap 0 128
read vol 0 128
remove snap
remove vol
remove base
remove cow
disk base 128
disk cow 64
create vol 0 128 snapshot-origin base
write vol 0 65536*11
create snap 0 128 snapshot base cow P 1
write vol 0 12800*aa
start vol write 25 512*aa
step vol copy-read 26
step vol copy-write 26
step vol flush-store snap
step vol write-area snap
stop vol
create vol 0 128 snapshot-origin base
create snap 0 128 snapshot base cow P 1
status snap
read snap 0 128
read vol 0 128
remove snap
remove vol
remove base
remove cow
disk base 128
disk cow 64
create vol 0 128 snapshot-origin base
write vol 0 65536*11
create snap 0 128 snapshot base cow P 1
write vol 0 12800*aa
start vol write 25 512*aa
step vol copy-read 26
step vol copy-write 26
step vol flush-store snap
step vol write-area snap
step vol flush-store snap
stop vol
create vol 0 128 snapshot-origin base
create snap 0 128 snapshot base cow P 1
status snap
read snap 0 128
read vol 0 128
remove snap
remove vol
remove base
remove cow
disk base 128
disk cow 64
create vol 0 128 snapshot-origin base
write vol 0 65536*11
create snap 0 128 snapshot base cow P 1
write vol 0 12800*aa
start vol write 25 512*aa
step vol copy-read 26
step vol copy-write 26
step vol flush-store snap
step vol write-area snap
step vol flush-store snap
step vol publish 26
stop vol
create vol 0 128 snapshot-origin base
create snap 0 128 snapshot base cow P 1
status snap
read snap 0 128
read vol 0 128
remove snap
remove vol
remove base
remove cow
disk base 128
disk cow 64
create vol 0 128 snapshot-origin base
write vol 0 65536*11
create snap 0 128 snapshot base cow P 1
write vol 0 12800*aa
start vol write 25 512*aa
step vol copy-read 26
step vol copy-write 26
step vol flush-store snap
step vol write-area snap
step vol flush-store snap
step vol publish 26
step vol issue 27
stop vol
create vol 0 128 snapshot-origin base
create snap 0 128 snapshot base cow P 1
status snap
read snap 0 128
read vol 0 128
remove snap
remove vol
remove base
remove cow
disk base 128
disk cow 64
create vol 0 128 snapshot-origin base
write vol 0 65536*11
create snap 0 128 snapshot base cow P 1
write vol 0 13312*aa
start vol write 26 512*aa
stop vol
create vol 0 128 snapshot-origin base
create snap 0 128 snapshot base cow P 1
status snap
read snap 0 128
read vol 0 128
remove snap
remove vol
remove base
remove cow
disk base 128
disk cow 64
create vol 0 128 snapshot-origin base
write vol 0 65536*11
create snap 0 128 snapshot base cow P 1
write vol 0 13312*aa
start vol write 26 512*aa
step vol copy-read 27
stop vol
create vol 0 128 snapshot-origin base
create snap 0 128 snapshot base cow P 1
status snap
read snap 0 128
read vol 0 128
remove snap
remove vol
remove base
remove cow
disk base 128
disk cow 64
create vol 0 128 snapshot-origin base
write vol 0 65536*11
create snap 0 128 snapshot base cow P 1
write vol 0 13312*aa
start vol write 26 512*aa
step vol copy-read 27
step vol copy-write 27
stop vol
create vol 0 128 snapshot-origin base
create snap 0 128 snapshot base cow P 1
status snap
read snap 0 128
read vol 0 128
remove snap
remove vol
remove base
remove cow
disk base 128
disk cow 64
create vol 0 128 snapshot-origin base
write vol 0 65536*11
create snap 0 128 snapshot base cow P 1
write vol 0 13312*aa
start vol write 26 512*aa
step vol copy-read 27
step vol copy-write 27
step vol flush-store snap
stop vol
create vol 0 128 snapshot-origin base
create snap 0 128 snapshot base cow P 1
status snap
read snap 0 128
read vol 0 128
remove snap
remove vol
remove base
remove cow
disk base 128
disk cow 64
create vol 0 128 snapshot-origin base
write vol 0 65536*11
create snap 0 128 snapshot base cow P 1
write vol 0 13312*aa
start vol write 26 512*aa
step vol copy-read 27
step vol copy-write 27
step vol flush-store snap
step vol write-area snap
stop vol
create vol 0 128 snapshot-origin base
create snap 0 128 snapshot base cow P 1
status snap
read snap 0 128
read vol 0 128
remove snap
remove vol
remove base
remove cow
disk base 128
disk cow 64
create vol 0 128 snapshot-origin base
write vol 0 65536*11
create snap 0 128 snapshot base cow P 1
write vol 0 13312*aa
start vol write 26 512*aa
step vol copy-read 27
step vol copy-write 27
step vol flush-store snap
step vol write-area snap
step vol flush-store snap
stop vol
create vol 0 128 snapshot-origin base
create snap 0 128 snapshot base cow P 1
status snap
read snap 0 128
read vol 0 128
remove snap
remove vol
remove base
remove cow
disk base 128
disk cow 64
create vol 0 128 snapshot-origin base
write vol 0 65536*11
create snap 0 128 snapshot base cow P 1
write vol 0 13312*aa
start vol write 26 512*aa
step vol copy-read 27
step vol copy-write 27
step vol flush-store snap
step vol write-area snap
step vol flush-store snap
step vol publish 27
stop vol
create vol 0 128 snapshot-origin base
create snap 0 128 snapshot base cow P 1
status snap
read snap 0 128
read vol 0 128
remove snap
remove vol
remove base
remove cow
disk base 128
disk cow 64
create vol 0 128 snapshot-origin base
write vol 0 65536*11
create snap 0 128 snapshot base cow P 1
write vol 0 13312*aa
start vol write 26 512*aa
step vol copy-read 27
step vol copy-write 27
step vol flush-store snap
step vol write-area snap
step vol flush-store snap
step vol publish 27
step vol issue 28
stop vol
create vol 0 128 snapshot-origin base
create snap 0 128 snapshot base cow P 1
status snap
read snap 0 128
read vol 0 128
remove snap
remove vol
remove base
remove cow
disk base 128
disk cow 64
create vol 0 128 snapshot-origin base
write vol 0 65536*11
create snap 0 128 snapshot base cow P 1
write vol 0 13824*aa
start vol write 27 512*aa
stop vol
create vol 0 128 snapshot-origin base
create snap 0 128 snapshot base cow P 1
status snap
read snap 0 128
read vol 0 128
remove snap
remove vol
remove base
remove cow
disk base 128
disk cow 64
create vol 0 128 snapshot-origin base
write vol 0 65536*11
create snap 0 128 snapshot base cow P 1
write vol 0 13824*aa
start vol write 27 512*aa
step vol copy-read 28
stop vol
create vol 0 128 snapshot-origin base
create snap 0 128 snapshot base cow P 1
status snap
read snap 0 128
read vol 0 128
remove snap
remove vol
remove base
remove cow
disk base 128
disk cow 64
create vol 0 128 snapshot-origin base
write vol 0 65536*11
create snap 0 128 snapshot base cow P 1
write vol 0 13824*aa
start vol write 27 512*aa
step vol copy-read 28
step vol copy-write 28
stop vol
create vol 0 128 snapshot-origin base
create snap 0 128 snapshot base cow P 1
status snap
read snap 0 128
read vol 0 128
remove snap
remove vol
remove base
remove cow
disk base 128
disk cow 64
create vol 0 128 snapshot-origin base
write vol 0 65536*11
create snap 0 128 snapshot base cow P 1
write vol 0 13824*aa
start vol write 27 512*aa
step vol copy-read 28
step vol copy-write 28
step vol flush-store snap
stop vol
create vol 0 128 snapshot-origin base
create snap 0 128 snapshot base cow P 1
status snap
read snap 0 128
read vol 0 128
remove snap
remove vol
remove base
remove cow
disk base 128
disk cow 64
create vol 0 128 snapshot-origin base
write vol 0 65536*11
create snap 0 128 snapshot base cow P 1
write vol 0 13824*aa
start vol write 27 512*aa
step vol copy-read 28
step vol copy-write 28
step vol flush-store snap
step vol write-area snap
stop vol
create vol 0 128 snapshot-origin base
create snap 0 128 snapshot base cow P 1
status snap
read snap 0 128
read vol 0 128
remove snap
remove vol
remove base
remove cow
disk base 128
disk cow 64
create vol 0 128 snapshot-origin base
write vol 0 65536*11
create snap 0 128 snapshot base cow P 1
write vol 0 13824*aa
start vol write 27 512*aa
step vol copy-read 28
step vol copy-write 28
step vol flush-store snap
step vol write-area snap
step vol flush-store snap
stop vol
create vol 0 128 snapshot-origin base
create snap 0 128 snapshot base cow P 1
status snap
read snap 0 128
read vol 0 128
remove snap
remove vol
remove base
remove cow
disk base 128
disk cow 64
create vol 0 128 snapshot-origin base
write vol 0 65536*11
create snap 0 128 snapshot base cow P 1
write vol 0 13824*aa
start vol write 27 512*aa
step vol copy-read 28
step vol copy-write 28
step vol flush-store snap
step vol write-area snap
step vol flush-store snap
step vol publish 28
stop vol
create vol 0 128 snapshot-origin base
create snap 0 128 snapshot base cow P 1
status snap
read snap 0 128
read vol 0 128
remove snap
remove vol
remove base
remove cow
disk base 128
disk cow 64
create vol 0 128 snapshot-origin base
write vol 0 65536*11
create snap 0 128 snapshot base cow P 1
write vol 0 13824*aa
start vol write 27 512*aa
step vol copy-read 28
step vol copy-write 28
step vol flush-store snap
step vol write-area snap
step vol flush-store snap
step vol publish 28
step vol issue 29
stop vol
create vol 0 128 snapshot-origin base
create snap 0 128 snapshot base cow P 1
status snap
read snap 0 128
read vol 0 128
remove snap
remove vol
remove base
remove cow
disk base 128
disk cow 64
create vol 0 128 snapshot-origin base
write vol 0 65536*11
create snap 0 128 snapshot base cow P 1
write vol 0 14336*aa
start vol write 28 512*aa
stop vol
create vol 0 128 snapshot-origin base
create snap 0 128 snapshot base cow P 1
status snap
read snap 0 128
read vol 0 128
remove snap
remove vol
remove base
remove cow
disk base 128
disk cow 64
create vol 0 128 snapshot-origin base
write vol 0 65536*11
create snap 0 128 snapshot base cow P 1
write vol 0 14336*aa
start vol write 28 512*aa
step vol copy-read 29
stop vol
create vol 0 128 snapshot-origin base
create snap 0 128 snapshot base cow P 1
status snap
read snap 0 128
read vol 0 128
remove snap
remove vol
remove base
remove cow
disk base 128
disk cow 64
create vol 0 128 snapshot-origin base
write vol 0 65536*11
create snap 0 128 snapshot base cow P 1
write vol 0 14336*aa
start vol write 28 512*aa
step vol copy-read 29
step vol copy-write 29
stop vol
create vol 0 128 snapshot-origin base
create snap 0 128 snapshot base cow P 1
status snap
read snap 0 128
read vol 0 128
remove snap
remove vol
remove base
remove cow
disk base 128
disk cow 64
create vol 0 128 snapshot-origin base
write vol 0 65536*11
create snap 0 128 snapshot base cow P 1
write vol 0 14336*aa
start vol write 28 512*aa
step vol copy-read 29
step vol copy-write 29
step vol flush-store snap
stop vol
create vol 0 128 snapshot-origin base
create snap 0 128 snapshot base cow P 1
status snap
read snap 0 128
read vol 0 128
remove snap
remove vol
remove base
remove cow
disk base 128
disk cow 64
create vol 0 128 snapshot-origin base
write vol 0 65536*11
create snap 0 128 snapshot base cow P 1
write vol 0 14336*aa
start vol write 28 512*aa
step vol copy-read 29
step vol copy-write 29
step vol flush-store snap
step vol write-area snap
stop vol
create vol 0 128 snapshot-origin base
create snap 0 128 snapshot base cow P 1
status snap
read snap 0 128
read vol 0 128
remove snap
remove vol
remove base
remove cow
disk base 128
disk cow 64
create vol 0 128 snapshot-origin base
write vol 0 65536*11
create snap 0 128 snapshot base cow P 1
write vol 0 14336*aa
start vol write 28 512*aa
step vol copy-read 29
step vol copy-write 29
step vol flush-store snap
step vol write-area snap
step vol flush-store snap
stop vol
create vol 0 128 snapshot-origin base
create snap 0 128 snapshot base cow P 1
status snap
read snap 0 128
read vol 0 128
remove snap
remove vol
remove base
remove cow
disk base 128
disk cow 64
create vol 0 128 snapshot-origin base
write vol 0 65536*11
create snap 0 128 snapshot base cow P 1
write vol 0 14336*aa
start vol write 28 512*aa
step vol copy-read 29
step vol copy-write 29
step vol flush-store snap
step vol write-area snap
step vol flush-store snap
step vol publish 29
stop vol
create vol 0 128 snapshot-origin base
create snap 0 128 snapshot base cow P 1
status snap
read snap 0 128
read vol 0 128
remove snap
remove vol
remove base
remove cow
disk base 128
disk cow 64
create vol 0 128 snapshot-origin base
write vol 0 65536*11
create snap 0 128 snapshot base cow P 1
write vol 0 14336*aa
start vol write 28 512*aa
step vol copy-read 29
step vol copy-write 29
step vol flush-store snap
step vol write-area snap
step vol flush-store snap
step vol publish 29
step vol issue 30
stop vol
create vol 0 128 snapshot-origin base
create snap 0 128 snapshot base cow P 1
status snap
read snap 0 128
read vol 0 128
remove snap
remove vol
remove base
remove cow
disk base 128
disk cow 64
create vol 0 128 snapshot-origin base
write vol 0 65536*11
create snap 0 128 snapshot base cow P 1
write vol 0 14848*aa
start vol write 29 512*aa
stop vol
create vol 0 128 snapshot-origin base
create snap 0 128 snapshot base cow P 1
status snap
read snap 0 128
read vol 0 128
remove snap
remove vol
remove base
remove cow
disk base 128
disk cow 64
create vol 0 128 snapshot-origin base
write vol 0 65536*11
create snap 0 128 snapshot base cow P 1
write vol 0 14848*aa
start vol write 29 512*aa
step vol copy-read 30
stop vol
create vol 0 128 snapshot-origin base
create snap 0 128 snapshot base cow P 1
status snap
read snap 0 128
read vol 0 128
remove snap
remove vol
remove base
remove cow
disk base 128
disk cow 64
create vol 0 128 snapshot-origin base
write vol 0 65536*11
create snap 0 128 snapshot base cow P 1
write vol 0 14848*aa
start vol write 29 512*aa
step vol copy-read 30
step vol copy-write 30
stop vol
create vol 0 128 snapshot-origin base
create snap 0 128 snapshot base cow P 1
status snap
read snap 0 128
read vol 0 128
remove snap
remove vol
remove base
remove cow
disk base 128
disk cow 64
create vol 0 128 snapshot-origin base
write vol 0 65536*11
create snap 0 128 snapshot base cow P 1
write vol 0 14848*aa
start vol write 29 512*aa
step vol copy-read 30
step vol copy-write 30
step vol flush-store snap
stop vol
create vol 0 128 snapshot-origin base
create snap 0 128 snapshot base cow P 1
status snap
read snap 0 128
read vol 0 128
remove snap
remove vol
remove base
remove cow
disk base 128
disk cow 64
create vol 0 128 snapshot-origin base
write vol 0 65536*11
create snap 0 128 snapshot base cow P 1
write vol 0 14848*aa
start vol write 29 512*aa
step vol copy-read 30
step vol copy-write 30
step vol flush-store snap
step vol write-area snap
stop vol
create vol 0 128 snapshot-origin base
create snap 0 128 snapshot base cow P 1
status snap
read snap 0 128
read vol 0 128
remove snap
remove vol
remove base
remove cow
disk base 128
disk cow 64
create vol 0 128 snapshot-origin base
write vol 0 65536*11
create snap 0 128 snapshot base cow P 1
write vol 0 14848*aa
start vol write 29 512*aa
step vol copy-read 30
step vol copy-write 30
step vol flush-store snap
step vol write-area snap
step vol flush-store snap
stop vol
create vol 0 128 snapshot-origin base
create snap 0 128 snapshot base cow P 1
status snap
read snap 0 128
read vol 0 128
remove snap
remove vol
remove base
remove cow
disk base 128
disk cow 64
create vol 0 128 snapshot-origin base
write vol 0 65536*11
create snap 0 128 snapshot base cow P 1
write vol 0 14848*aa
start vol write 29 512*aa
step vol copy-read 30
step vol copy-write 30
step vol flush-store snap
step vol write-area snap
step vol flush-store snap
step vol publish 30
stop vol
create vol 0 128 snapshot-origin base
create snap 0 128 snapshot base cow P 1
status snap
read snap 0 128
read vol 0 128
remove snap
remove vol
remove base
remove cow
disk base 128
disk cow 64
create vol 0 128 snapshot-origin base
write vol 0 65536*11
create snap 0 128 snapshot base cow P 1
write vol 0 14848*aa
start vol write 29 512*aa
step vol copy-read 30
step vol copy-write 30
step vol flush-store snap
step vol write-area snap
step vol flush-store snap
step vol publish 30
step vol issue 31
stop vol
create vol 0 128 snapshot-origin base
create snap 0 128 snapshot base cow P 1
status snap
read snap 0 128
read vol 0 128
remove snap
remove vol
remove base
remove cow
disk base 128
disk cow 64
create vol 0 128 snapshot-origin base
write vol 0 65536*11
create snap 0 128 snapshot base cow P 1
write vol 0 15360*aa
start vol write 30 512*aa
stop vol
create vol 0 128 snapshot-origin base
create snap 0 128 snapshot base cow P 1
status snap
read snap 0 128
read vol 0 128
remove snap
remove vol
remove base
remove cow
disk base 128
disk cow 64
create vol 0 128 snapshot-origin base
write vol 0 65536*11
create snap 0 128 snapshot base cow P 1
write vol 0 15360*aa
start vol write 30 512*aa
step vol copy-read 31
stop vol
create vol 0 128 snapshot-origin base
create snap 0 128 snapshot base cow P 1
status snap
read snap 0 128
read vol 0 128
remove snap
remove vol
remove base
remove cow
disk base 128
disk cow 64
create vol 0 128 snapshot-origin base
write vol 0 65536*11
create snap 0 128 snapshot base cow P 1
write vol 0 15360*aa
start vol write 30 512*aa
step vol copy-read 31
step vol copy-write 31
stop vol
create vol 0 128 snapshot-origin base
create snap 0 128 snapshot base cow P 1
status snap
read snap 0 128
read vol 0 128
remove snap
remove vol
remove base
remove cow
disk base 128
disk cow 64
create vol 0 128 snapshot-origin base
write vol 0 65536*11
create snap 0 128 snapshot base cow P 1
write vol 0 15360*aa
start vol write 30 512*aa
step vol copy-read 31
step vol copy-write 31
step vol flush-store snap
stop vol
create vol 0 128 snapshot-origin base
create snap 0 128 snapshot base cow P 1
status snap
read snap 0 128
read vol 0 128
remove snap
remove vol
remove base
remove cow
disk base 128
disk cow 64
create vol 0 128 snapshot-origin base
write vol 0 65536*11
create snap 0 128 snapshot base cow P 1
write vol 0 15360*aa
start vol write 30 512*aa
step vol copy-read 31
step vol copy-write 31
step vol flush-store snap
step vol write-area snap
stop vol
create vol 0 128 snapshot-origin base
create snap 0 128 snapshot base cow P 1
status snap
read snap 0 128
read vol 0 128
remove snap
remove vol
remove base
remove cow
disk base 128
disk cow 64
create vol 0 128 snapshot-origin base
write vol 0 65536*11
create snap 0 128 snapshot base cow P 1
write vol 0 15360*aa
start vol write 30 512*aa
step vol copy-read 31
step vol copy-write 31
step vol flush-store snap
step vol write-area snap
step vol flush-store snap
stop vol
create vol 0 128 snapshot-origin base
create snap 0 128 snapshot base cow P 1
status snap
read snap 0 128
read vol 0 128
remove snap
remove vol
remove base
remove cow
disk base 128
disk cow 64
create vol 0 128 snapshot-origin base
write vol 0 65536*11
create snap 0 128 snapshot base cow P 1
write vol 0 15360*aa
start vol write 30 512*aa
step vol copy-read 31
step vol copy-write 31
step vol flush-store snap
step vol write-area snap
step vol flush-store snap
step vol publish 31
stop vol
create vol 0 128 snapshot-origin base
create snap 0 128 snapshot base cow P 1
status snap
read snap 0 128
read vol 0 128
remove snap
remove vol
remove base
remove cow
disk base 128
disk cow 64
create vol 0 128 snapshot-origin base
write vol 0 65536*11
create snap 0 128 snapshot base cow P 1
write vol 0 15360*aa
start vol write 30 512*aa
step vol copy-read 31
step vol copy-write 31
step vol flush-store snap
step vol write-area snap
step vol flush-store snap
step vol publish 31
step vol issue 32
stop vol
create vol 0 128 snapshot-origin base
create snap 0 128 snapshot base cow P 1
status snap
read snap 0 128
read vol 0 128
remove snap
remove vol
remove base
remove cow
disk base 128
disk cow 64
create vol 0 128 snapshot-origin base
write vol 0 65536*11
create snap 0 128 snapshot base cow P 1
write vol 0 15872*aa
start vol write 31 512*aa
stop vol
create vol 0 128 snapshot-origin base
create snap 0 128 snapshot base cow P 1
status snap
read snap 0 128
read vol 0 128
remove snap
remove vol
remove base
remove cow
disk base 128
disk cow 64
create vol 0 128 snapshot-origin base
write vol 0 65536*11
create snap 0 128 snapshot base cow P 1
write vol 0 15872*aa
start vol write 31 512*aa
step vol copy-read 32
stop vol
create vol 0 128 snapshot-origin base
create snap 0 128 snapshot base cow P 1
status snap
read snap 0 128
read vol 0 128
remove snap
remove vol
remove base
remove cow
disk base 128
disk cow 64
create vol 0 128 snapshot-origin base
write vol 0 65536*11
create snap 0 128 snapshot base cow P 1
write vol 0 15872*aa
start vol write 31 512*aa
step vol copy-read 32
step vol copy-write 32
stop vol
create vol 0 128 snapshot-origin base
create snap 0 128 snapshot base cow P 1
status snap
read snap 0 128
read vol 0 128
remove snap
remove vol
remove base
remove cow
disk base 128
disk cow 64
create vol 0 128 snapshot-origin base
write vol 0 65536*11
create snap 0 128 snapshot base cow P 1
write vol 0 15872*aa
start vol write 31 512*aa
step vol copy-read 32
step vol copy-write 32
step vol flush-store snap
stop vol
create vol 0 128 snapshot-origin base
create snap 0 128 snapshot base cow P 1
status snap
read snap 0 128
read vol 0 128
remove snap
remove vol
remove base
remove cow
disk base 128
disk cow 64
create vol 0 128 snapshot-origin base
write vol 0 65536*11
create snap 0 128 snapshot base cow P 1
write vol 0 15872*aa
start vol write 31 512*aa
step vol copy-read 32
step vol copy-write 32
step vol flush-store snap
step vol zero-next snap
stop vol
create vol 0 128 snapshot-origin base
create snap 0 128 snapshot base cow P 1
status snap
read snap 0 128
read vol 0 128
remove snap
remove vol
remove base
remove cow
disk base 128
disk cow 64
create vol 0 128 snapshot-origin base
write vol 0 65536*11
create snap 0 128 snapshot base cow P 1
write vol 0 15872*aa
start vol write 31 512*aa
step vol copy-read 32
step vol copy-write 32
step vol flush-store snap
step vol zero-next snap
step vol flush-store snap
stop vol
create vol 0 128 snapshot-origin base
create snap 0 128 snapshot base cow P 1
status snap
read snap 0 128
read vol 0 128
remove snap
remove vol
remove base
remove cow
disk base 128
disk cow 64
create vol 0 128 snapshot-origin base
write vol 0 65536*11
create snap 0 128 snapshot base cow P 1
write vol 0 15872*aa
start vol write 31 512*aa
step vol copy-read 32
step vol copy-write 32
step vol flush-store snap
step vol zero-next snap
step vol flush-store snap
step vol write-area snap
stop vol
create vol 0 128 snapshot-origin base
create snap 0 128 snapshot base cow P 1
status snap
read snap 0 128
read vol 0 128
remove snap
remove vol
remove base
remove cow
disk base 128
disk cow 64
create vol 0 128 snapshot-origin base
write vol 0 65536*11
create snap 0 128 snapshot base cow P 1
write vol 0 15872*aa
start vol write 31 512*aa
step vol copy-read 32
step vol copy-write 32
step vol flush-store snap
step vol zero-next snap
step vol flush-store snap
step vol write-area snap
step vol flush-store snap
stop vol
create vol 0 128 snapshot-origin base
create snap 0 128 snapshot base cow P 1
status snap
read snap 0 128
read vol 0 128
remove snap
remove vol
remove base
remove cow
disk base 128
disk cow 64
create vol 0 128 snapshot-origin base
write vol 0 65536*11
create snap 0 128 snapshot base cow P 1
write vol 0 15872*aa
start vol write 31 512*aa
step vol copy-read 32
step vol copy-write 32
step vol flush-store snap
step vol zero-next snap
step vol flush-store snap
step vol write-area snap
step vol flush-store snap
step vol publish 32
stop vol
create vol 0 128 snapshot-origin base
create snap 0 128 snapshot base cow P 1
status snap
read snap 0 128
read vol 0 128
remove snap
remove vol
remove base
remove cow
disk base 128
disk cow 64
create vol 0 128 snapshot-origin base
write vol 0 65536*11
create snap 0 128 snapshot base cow P 1
write vol 0 15872*aa
start vol write 31 512*aa
step vol copy-read 32
step vol copy-write 32
step vol flush-store snap
step vol zero-next snap
step vol flush-store snap
step vol write-area snap
step vol flush-store snap
step vol publish 32
step vol issue 33
stop vol
create vol 0 128 snapshot-origin base
create snap 0 128 snapshot base cow P 1
status snap
read snap 0 128
read vol 0 128
remove snap
remove vol
remove base
remove cow
disk base 128
disk cow 64
create vol 0 128 snapshot-origin base
write vol 0 65536*11
create snap 0 128 snapshot base cow P 1
write vol 0 16384*aa
start vol write 32 512*aa
stop vol
create vol 0 128 snapshot-origin base
create snap 0 128 snapshot base cow P 1
status snap
read snap 0 128
read vol 0 128
remove snap
remove vol
remove base
remove cow
disk base 128
disk cow 64
create vol 0 128 snapshot-origin base
write vol 0 65536*11
create snap 0 128 snapshot base cow P 1
write vol 0 16384*aa
start vol write 32 512*aa
step vol copy-read 33
stop vol
create vol 0 128 snapshot-origin base
create snap 0 128 snapshot base cow P 1
status snap
read snap 0 128
read vol 0 128
remove snap
remove vol
remove base
remove cow
disk base 128
disk cow 64
create vol 0 128 snapshot-origin base
write vol 0 65536*11
create snap 0 128 snapshot base cow P 1
write vol 0 16384*aa
start vol write 32 512*aa
step vol copy-read 33
step vol copy-write 33
stop vol
create vol 0 128 snapshot-origin base
create snap 0 128 snapshot base cow P 1
status snap
read snap 0 128
read vol 0 128
remove snap
remove vol
remove base
remove cow
disk base 128
disk cow 64
create vol 0 128 snapshot-origin base
write vol 0 65536*11
create snap 0 128 snapshot base cow P 1
write vol 0 16384*aa
start vol write 32 512*aa
step vol copy-read 33
step vol copy-write 33
step vol flush-store snap
stop vol
create vol 0 128 snapshot-origin base
create snap 0 128 snapshot base cow P 1
status snap
read snap 0 128
read vol 0 128
remove snap
remove vol
remove base
remove cow
disk base 128
disk cow 64
create vol 0 128 snapshot-origin base
write vol 0 65536*11
create snap 0 128 snapshot base cow P 1
write vol 0 16384*aa
start vol write 32 512*aa
step vol copy-read 33
step vol copy-write 33
step vol flush-store snap
step vol write-area snap
stop vol
create vol 0 128 snapshot-origin base
create snap 0 128 snapshot base cow P 1
status snap
read snap 0 128
read vol 0 128
remove snap
remove vol
remove base
remove cow
disk base 128
disk cow 64
create vol 0 128 snapshot-origin base
write vol 0 65536*11
create snap 0 128 snapshot base cow P 1
write vol 0 16384*aa
start vol write 32 512*aa
step vol copy-read 33
step vol copy-write 33
step vol flush-store snap
step vol write-area snap
step vol flush-store snap
stop vol
create vol 0 128 snapshot-origin base
create snap 0 128 snapshot base cow P 1
status snap
read snap 0 128
read vol 0 128
remove snap
remove vol
remove base
remove cow
disk base 128
disk cow 64
create vol 0 128 snapshot-origin base
write vol 0 65536*11
create snap 0 128 snapshot base cow P 1
write vol 0 16384*aa
start vol write 32 512*aa
step vol copy-read 33
step vol copy-write 33
step vol flush-store snap
step vol write-area snap
step vol flush-store snap
step vol publish 33
stop vol
create vol 0 128 snapshot-origin base
create snap 0 128 snapshot base cow P 1
status snap
read snap 0 128
read vol 0 128
remove snap
remove vol
remove base
remove cow
disk base 128
disk cow 64
create vol 0 128 snapshot-origin base
write vol 0 65536*11
create snap 0 128 snapshot base cow P 1
write vol 0 16384*aa
start vol write 32 512*aa
step vol copy-read 33
step vol copy-write 33
step vol flush-store snap
step vol write-area snap
step vol flush-store snap
step vol publish 33
step vol issue 34
stop vol
create vol 0 128 snapshot-origin base
create snap 0 128 snapshot base cow P 1
status snap
read snap 0 128
read vol 0 128
remove snap
remove vol
remove base
remove cow
