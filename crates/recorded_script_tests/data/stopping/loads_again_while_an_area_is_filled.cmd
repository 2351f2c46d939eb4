# Stopped after each event of the first 16 writes of a store: loaded again, it has the pairs that were committed, and the
# snapshot shows what it showed.
# By the admin-guide page on snapshots and the persistent store's format; that a volume is stopped by a command is this project's.
disk base 128
disk cow 64
create vol 0 128 snapshot-origin base
write vol 0 65536*11
create snap 0 128 snapshot base cow P 1
stop vol
create vol 0 128 snapshot-origin base
create snap 0 128 snapshot base cow P 1
status snap
read snap 0 128
read vol 0 128
remove snap
remove vol
remove base
remove cow
disk base 128
disk cow 64
create vol 0 128 snapshot-origin base
write vol 0 65536*11
create snap 0 128 snapshot base cow P 1
start vol write 0 512*aa
stop vol
create vol 0 128 snapshot-origin base
create snap 0 128 snapshot base cow P 1
status snap
read snap 0 128
read vol 0 128
remove snap
remove vol
remove base
remove cow
disk base 128
disk cow 64
create vol 0 128 snapshot-origin base
write vol 0 65536*11
create snap 0 128 snapshot base cow P 1
start vol write 0 512*aa
step vol copy-read 1
stop vol
create vol 0 128 snapshot-origin base
create snap 0 128 snapshot base cow P 1
status snap
read snap 0 128
read vol 0 128
remove snap
remove vol
remove base
remove cow
disk base 128
disk cow 64
create vol 0 128 snapshot-origin base
write vol 0 65536*11
create snap 0 128 snapshot base cow P 1
start vol write 0 512*aa
step vol copy-read 1
step vol copy-write 1
stop vol
create vol 0 128 snapshot-origin base
create snap 0 128 snapshot base cow P 1
status snap
read snap 0 128
read vol 0 128
remove snap
remove vol
remove base
remove cow
disk base 128
disk cow 64
create vol 0 128 snapshot-origin base
write vol 0 65536*11
create snap 0 128 snapshot base cow P 1
start vol write 0 512*aa
step vol copy-read 1
step vol copy-write 1
step vol flush-store snap
stop vol
create vol 0 128 snapshot-origin base
create snap 0 128 snapshot base cow P 1
status snap
read snap 0 128
read vol 0 128
remove snap
remove vol
remove base
remove cow
disk base 128
disk cow 64
create vol 0 128 snapshot-origin base
write vol 0 65536*11
create snap 0 128 snapshot base cow P 1
start vol write 0 512*aa
step vol copy-read 1
step vol copy-write 1
step vol flush-store snap
step vol write-area snap
stop vol
create vol 0 128 snapshot-origin base
create snap 0 128 snapshot base cow P 1
status snap
read snap 0 128
read vol 0 128
remove snap
remove vol
remove base
remove cow
disk base 128
disk cow 64
create vol 0 128 snapshot-origin base
write vol 0 65536*11
create snap 0 128 snapshot base cow P 1
start vol write 0 512*aa
step vol copy-read 1
step vol copy-write 1
step vol flush-store snap
step vol write-area snap
step vol flush-store snap
stop vol
create vol 0 128 snapshot-origin base
create snap 0 128 snapshot base cow P 1
status snap
read snap 0 128
read vol 0 128
remove snap
remove vol
remove base
remove cow
disk base 128
disk cow 64
create vol 0 128 snapshot-origin base
write vol 0 65536*11
create snap 0 128 snapshot base cow P 1
start vol write 0 512*aa
step vol copy-read 1
step vol copy-write 1
step vol flush-store snap
step vol write-area snap
step vol flush-store snap
step vol publish 1
stop vol
create vol 0 128 snapshot-origin base
create snap 0 128 snapshot base cow P 1
status snap
read snap 0 128
read vol 0 128
remove snap
remove vol
remove base
remove cow
disk base 128
disk cow 64
create vol 0 128 snapshot-origin base
write vol 0 65536*11
create snap 0 128 snapshot base cow P 1
start vol write 0 512*aa
step vol copy-read 1
step vol copy-write 1
step vol flush-store snap
step vol write-area snap
step vol flush-store snap
step vol publish 1
step vol issue 2
stop vol
create vol 0 128 snapshot-origin base
create snap 0 128 snapshot base cow P 1
status snap
read snap 0 128
read vol 0 128
remove snap
remove vol
remove base
remove cow
disk base 128
disk cow 64
create vol 0 128 snapshot-origin base
write vol 0 65536*11
create snap 0 128 snapshot base cow P 1
write vol 0 512*aa
start vol write 1 512*aa
stop vol
create vol 0 128 snapshot-origin base
create snap 0 128 snapshot base cow P 1
status snap
read snap 0 128
read vol 0 128
remove snap
remove vol
remove base
remove cow
disk base 128
disk cow 64
create vol 0 128 snapshot-origin base
write vol 0 65536*11
create snap 0 128 snapshot base cow P 1
write vol 0 512*aa
start vol write 1 512*aa
step vol copy-read 2
stop vol
create vol 0 128 snapshot-origin base
create snap 0 128 snapshot base cow P 1
status snap
read snap 0 128
read vol 0 128
remove snap
remove vol
remove base
remove cow
disk base 128
disk cow 64
create vol 0 128 snapshot-origin base
write vol 0 65536*11
create snap 0 128 snapshot base cow P 1
write vol 0 512*aa
start vol write 1 512*aa
step vol copy-read 2
step vol copy-write 2
stop vol
create vol 0 128 snapshot-origin base
create snap 0 128 snapshot base cow P 1
status snap
read snap 0 128
read vol 0 128
remove snap
remove vol
remove base
remove cow
disk base 128
disk cow 64
create vol 0 128 snapshot-origin base
write vol 0 65536*11
create snap 0 128 snapshot base cow P 1
write vol 0 512*aa
start vol write 1 512*aa
step vol copy-read 2
step vol copy-write 2
step vol flush-store snap
stop vol
create vol 0 128 snapshot-origin base
create snap 0 128 snapshot base cow P 1
status snap
read snap 0 128
read vol 0 128
remove snap
remove vol
remove base
remove cow
disk base 128
disk cow 64
create vol 0 128 snapshot-origin base
write vol 0 65536*11
create snap 0 128 snapshot base cow P 1
write vol 0 512*aa
start vol write 1 512*aa
step vol copy-read 2
step vol copy-write 2
step vol flush-store snap
step vol write-area snap
stop vol
create vol 0 128 snapshot-origin base
create snap 0 128 snapshot base cow P 1
status snap
read snap 0 128
read vol 0 128
remove snap
remove vol
remove base
remove cow
disk base 128
disk cow 64
create vol 0 128 snapshot-origin base
write vol 0 65536*11
create snap 0 128 snapshot base cow P 1
write vol 0 512*aa
start vol write 1 512*aa
step vol copy-read 2
step vol copy-write 2
step vol flush-store snap
step vol write-area snap
step vol flush-store snap
stop vol
create vol 0 128 snapshot-origin base
create snap 0 128 snapshot base cow P 1
status snap
read snap 0 128
read vol 0 128
remove snap
remove vol
remove base
remove cow
disk base 128
disk cow 64
create vol 0 128 snapshot-origin base
write vol 0 65536*11
create snap 0 128 snapshot base cow P 1
write vol 0 512*aa
start vol write 1 512*aa
step vol copy-read 2
step vol copy-write 2
step vol flush-store snap
step vol write-area snap
step vol flush-store snap
step vol publish 2
stop vol
create vol 0 128 snapshot-origin base
create snap 0 128 snapshot base cow P 1
status snap
read snap 0 128
read vol 0 128
remove snap
remove vol
remove base
remove cow
disk base 128
disk cow 64
create vol 0 128 snapshot-origin base
write vol 0 65536*11
create snap 0 128 snapshot base cow P 1
write vol 0 512*aa
start vol write 1 512*aa
step vol copy-read 2
step vol copy-write 2
step vol flush-store snap
step vol write-area snap
step vol flush-store snap
step vol publish 2
step vol issue 3
stop vol
create vol 0 128 snapshot-origin base
create snap 0 128 snapshot base cow P 1
status snap
read snap 0 128
read vol 0 128
remove snap
remove vol
remove base
remove cow
disk base 128
disk cow 64
create vol 0 128 snapshot-origin base
write vol 0 65536*11
create snap 0 128 snapshot base cow P 1
write vol 0 1024*aa
start vol write 2 512*aa
stop vol
create vol 0 128 snapshot-origin base
create snap 0 128 snapshot base cow P 1
status snap
read snap 0 128
read vol 0 128
remove snap
remove vol
remove base
remove cow
disk base 128
disk cow 64
create vol 0 128 snapshot-origin base
write vol 0 65536*11
create snap 0 128 snapshot base cow P 1
write vol 0 1024*aa
start vol write 2 512*aa
step vol copy-read 3
stop vol
create vol 0 128 snapshot-origin base
create snap 0 128 snapshot base cow P 1
status snap
read snap 0 128
read vol 0 128
remove snap
remove vol
remove base
remove cow
disk base 128
disk cow 64
create vol 0 128 snapshot-origin base
write vol 0 65536*11
create snap 0 128 snapshot base cow P 1
write vol 0 1024*aa
start vol write 2 512*aa
step vol copy-read 3
step vol copy-write 3
stop vol
create vol 0 128 snapshot-origin base
create snap 0 128 snapshot base cow P 1
status snap
read snap 0 128
read vol 0 128
remove snap
remove vol
remove base
remove cow
disk base 128
disk cow 64
create vol 0 128 snapshot-origin base
write vol 0 65536*11
create snap 0 128 snapshot base cow P 1
write vol 0 1024*aa
start vol write 2 512*aa
step vol copy-read 3
step vol copy-write 3
step vol flush-store snap
stop vol
create vol 0 128 snapshot-origin base
create snap 0 128 snapshot base cow P 1
status snap
read snap 0 128
read vol 0 128
remove snap
remove vol
remove base
remove cow
disk base 128
disk cow 64
create vol 0 128 snapshot-origin base
write vol 0 65536*11
create snap 0 128 snapshot base cow P 1
write vol 0 1024*aa
start vol write 2 512*aa
step vol copy-read 3
step vol copy-write 3
step vol flush-store snap
step vol write-area snap
stop vol
create vol 0 128 snapshot-origin base
create snap 0 128 snapshot base cow P 1
status snap
read snap 0 128
read vol 0 128
remove snap
remove vol
remove base
remove cow
disk base 128
disk cow 64
create vol 0 128 snapshot-origin base
write vol 0 65536*11
create snap 0 128 snapshot base cow P 1
write vol 0 1024*aa
start vol write 2 512*aa
step vol copy-read 3
step vol copy-write 3
step vol flush-store snap
step vol write-area snap
step vol flush-store snap
stop vol
create vol 0 128 snapshot-origin base
create snap 0 128 snapshot base cow P 1
status snap
read snap 0 128
read vol 0 128
remove snap
remove vol
remove base
remove cow
disk base 128
disk cow 64
create vol 0 128 snapshot-origin base
write vol 0 65536*11
create snap 0 128 snapshot base cow P 1
write vol 0 1024*aa
start vol write 2 512*aa
step vol copy-read 3
step vol copy-write 3
step vol flush-store snap
step vol write-area snap
step vol flush-store snap
step vol publish 3
stop vol
create vol 0 128 snapshot-origin base
create snap 0 128 snapshot base cow P 1
status snap
read snap 0 128
read vol 0 128
remove snap
remove vol
remove base
remove cow
disk base 128
disk cow 64
create vol 0 128 snapshot-origin base
write vol 0 65536*11
create snap 0 128 snapshot base cow P 1
write vol 0 1024*aa
start vol write 2 512*aa
step vol copy-read 3
step vol copy-write 3
step vol flush-store snap
step vol write-area snap
step vol flush-store snap
step vol publish 3
step vol issue 4
stop vol
create vol 0 128 snapshot-origin base
create snap 0 128 snapshot base cow P 1
status snap
read snap 0 128
read vol 0 128
remove snap
remove vol
remove base
remove cow
disk base 128
disk cow 64
create vol 0 128 snapshot-origin base
write vol 0 65536*11
create snap 0 128 snapshot base cow P 1
write vol 0 1536*aa
start vol write 3 512*aa
stop vol
create vol 0 128 snapshot-origin base
create snap 0 128 snapshot base cow P 1
status snap
read snap 0 128
read vol 0 128
remove snap
remove vol
remove base
remove cow
disk base 128
disk cow 64
create vol 0 128 snapshot-origin base
write vol 0 65536*11
create snap 0 128 snapshot base cow P 1
write vol 0 1536*aa
start vol write 3 512*aa
step vol copy-read 4
stop vol
create vol 0 128 snapshot-origin base
create snap 0 128 snapshot base cow P 1
status snap
read snap 0 128
read vol 0 128
remove snap
remove vol
remove base
remove cow
disk base 128
disk cow 64
create vol 0 128 snapshot-origin base
write vol 0 65536*11
create snap 0 128 snapshot base cow P 1
write vol 0 1536*aa
start vol write 3 512*aa
step vol copy-read 4
step vol copy-write 4
stop vol
create vol 0 128 snapshot-origin base
create snap 0 128 snapshot base cow P 1
status snap
read snap 0 128
read vol 0 128
remove snap
remove vol
remove base
remove cow
disk base 128
disk cow 64
create vol 0 128 snapshot-origin base
write vol 0 65536*11
create snap 0 128 snapshot base cow P 1
write vol 0 1536*aa
start vol write 3 512*aa
step vol copy-read 4
step vol copy-write 4
step vol flush-store snap
stop vol
create vol 0 128 snapshot-origin base
create snap 0 128 snapshot base cow P 1
status snap
read snap 0 128
read vol 0 128
remove snap
remove vol
remove base
remove cow
disk base 128
disk cow 64
create vol 0 128 snapshot-origin base
write vol 0 65536*11
create snap 0 128 snapshot base cow P 1
write vol 0 1536*aa
start vol write 3 512*aa
step vol copy-read 4
step vol copy-write 4
step vol flush-store snap
step vol write-area snap
stop vol
create vol 0 128 snapshot-origin base
create snap 0 128 snapshot base cow P 1
status snap
read snap 0 128
read vol 0 128
remove snap
remove vol
remove base
remove cow
disk base 128
disk cow 64
create vol 0 128 snapshot-origin base
write vol 0 65536*11
create snap 0 128 snapshot base cow P 1
write vol 0 1536*aa
start vol write 3 512*aa
step vol copy-read 4
step vol copy-write 4
step vol flush-store snap
step vol write-area snap
step vol flush-store snap
stop vol
create vol 0 128 snapshot-origin base
create snap 0 128 snapshot base cow P 1
status snap
read snap 0 128
read vol 0 128
remove snap
remove vol
remove base
remove cow
disk base 128
disk cow 64
create vol 0 128 snapshot-origin base
write vol 0 65536*11
create snap 0 128 snapshot base cow P 1
write vol 0 1536*aa
start vol write 3 512*aa
step vol copy-read 4
step vol copy-write 4
step vol flush-store snap
step vol write-area snap
step vol flush-store snap
step vol publish 4
stop vol
create vol 0 128 snapshot-origin base
create snap 0 128 snapshot base cow P 1
status snap
read snap 0 128
read vol 0 128
remove snap
remove vol
remove base
remove cow
disk base 128
disk cow 64
create vol 0 128 snapshot-origin base
write vol 0 65536*11
create snap 0 128 snapshot base cow P 1
write vol 0 1536*aa
start vol write 3 512*aa
step vol copy-read 4
step vol copy-write 4
step vol flush-store snap
step vol write-area snap
step vol flush-store snap
step vol publish 4
step vol issue 5
stop vol
create vol 0 128 snapshot-origin base
create snap 0 128 snapshot base cow P 1
status snap
read snap 0 128
read vol 0 128
remove snap
remove vol
remove base
remove cow
disk base 128
disk cow 64
create vol 0 128 snapshot-origin base
write vol 0 65536*11
create snap 0 128 snapshot base cow P 1
write vol 0 2048*aa
start vol write 4 512*aa
stop vol
create vol 0 128 snapshot-origin base
create snap 0 128 snapshot base cow P 1
status snap
read snap 0 128
read vol 0 128
remove snap
remove vol
remove base
remove cow
disk base 128
disk cow 64
create vol 0 128 snapshot-origin base
write vol 0 65536*11
create snap 0 128 snapshot base cow P 1
write vol 0 2048*aa
start vol write 4 512*aa
step vol copy-read 5
stop vol
create vol 0 128 snapshot-origin base
create snap 0 128 snapshot base cow P 1
status snap
read snap 0 128
read vol 0 128
remove snap
remove vol
remove base
remove cow
disk base 128
disk cow 64
create vol 0 128 snapshot-origin base
write vol 0 65536*11
create snap 0 128 snapshot base cow P 1
write vol 0 2048*aa
start vol write 4 512*aa
step vol copy-read 5
step vol copy-write 5
stop vol
create vol 0 128 snapshot-origin base
create snap 0 128 snapshot base cow P 1
status snap
read snap 0 128
read vol 0 128
remove snap
remove vol
remove base
remove cow
disk base 128
disk cow 64
create vol 0 128 snapshot-origin base
write vol 0 65536*11
create snap 0 128 snapshot base cow P 1
write vol 0 2048*aa
start vol write 4 512*aa
step vol copy-read 5
step vol copy-write 5
step vol flush-store snap
stop vol
create vol 0 128 snapshot-origin base
create snap 0 128 snapshot base cow P 1
status snap
read snap 0 128
read vol 0 128
remove snap
remove vol
remove base
remove cow
disk base 128
disk cow 64
create vol 0 128 snapshot-origin base
write vol 0 65536*11
create snap 0 128 snapshot base cow P 1
write vol 0 2048*aa
start vol write 4 512*aa
step vol copy-read 5
step vol copy-write 5
step vol flush-store snap
step vol write-area snap
stop vol
create vol 0 128 snapshot-origin base
create snap 0 128 snapshot base cow P 1
status snap
read snap 0 128
read vol 0 128
remove snap
remove vol
remove base
remove cow
disk base 128
disk cow 64
create vol 0 128 snapshot-origin base
write vol 0 65536*11
create snap 0 128 snapshot base cow P 1
write vol 0 2048*aa
start vol write 4 512*aa
step vol copy-read 5
step vol copy-write 5
step vol flush-store snap
step vol write-area snap
step vol flush-store snap
stop vol
create vol 0 128 snapshot-origin base
create snap 0 128 snapshot base cow P 1
status snap
read snap 0 128
read vol 0 128
remove snap
remove vol
remove base
remove cow
disk base 128
disk cow 64
create vol 0 128 snapshot-origin base
write vol 0 65536*11
create snap 0 128 snapshot base cow P 1
write vol 0 2048*aa
start vol write 4 512*aa
step vol copy-read 5
step vol copy-write 5
step vol flush-store snap
step vol write-area snap
step vol flush-store snap
step vol publish 5
stop vol
create vol 0 128 snapshot-origin base
create snap 0 128 snapshot base cow P 1
status snap
read snap 0 128
read vol 0 128
remove snap
remove vol
remove base
remove cow
disk base 128
disk cow 64
create vol 0 128 snapshot-origin base
write vol 0 65536*11
create snap 0 128 snapshot base cow P 1
write vol 0 2048*aa
start vol write 4 512*aa
step vol copy-read 5
step vol copy-write 5
step vol flush-store snap
step vol write-area snap
step vol flush-store snap
step vol publish 5
step vol issue 6
stop vol
create vol 0 128 snapshot-origin base
create snap 0 128 snapshot base cow P 1
status snap
read snap 0 128
read vol 0 128
remove snap
remove vol
remove base
remove cow
disk base 128
disk cow 64
create vol 0 128 snapshot-origin base
write vol 0 65536*11
create snap 0 128 snapshot base cow P 1
write vol 0 2560*aa
start vol write 5 512*aa
stop vol
create vol 0 128 snapshot-origin base
create snap 0 128 snapshot base cow P 1
status snap
read snap 0 128
read vol 0 128
remove snap
remove vol
remove base
remove cow
disk base 128
disk cow 64
create vol 0 128 snapshot-origin base
write vol 0 65536*11
create snap 0 128 snapshot base cow P 1
write vol 0 2560*aa
start vol write 5 512*aa
step vol copy-read 6
stop vol
create vol 0 128 snapshot-origin base
create snap 0 128 snapshot base cow P 1
status snap
read snap 0 128
read vol 0 128
remove snap
remove vol
remove base
remove cow
disk base 128
disk cow 64
create vol 0 128 snapshot-origin base
write vol 0 65536*11
create snap 0 128 snapshot base cow P 1
write vol 0 2560*aa
start vol write 5 512*aa
step vol copy-read 6
step vol copy-write 6
stop vol
create vol 0 128 snapshot-origin base
create snap 0 128 snapshot base cow P 1
status snap
read snap 0 128
read vol 0 128
remove snap
remove vol
remove base
remove cow
disk base 128
disk cow 64
create vol 0 128 snapshot-origin base
write vol 0 65536*11
create snap 0 128 snapshot base cow P 1
write vol 0 2560*aa
start vol write 5 512*aa
step vol copy-read 6
step vol copy-write 6
step vol flush-store snap
stop vol
create vol 0 128 snapshot-origin base
create snap 0 128 snapshot base cow P 1
status snap
read snap 0 128
read vol 0 128
remove snap
remove vol
remove base
remove cow
disk base 128
disk cow 64
create vol 0 128 snapshot-origin base
write vol 0 65536*11
create snap 0 128 snapshot base cow P 1
write vol 0 2560*aa
start vol write 5 512*aa
step vol copy-read 6
step vol copy-write 6
step vol flush-store snap
step vol write-area snap
stop vol
create vol 0 128 snapshot-origin base
create snap 0 128 snapshot base cow P 1
status snap
read snap 0 128
read vol 0 128
remove snap
remove vol
remove base
remove cow
disk base 128
disk cow 64
create vol 0 128 snapshot-origin base
write vol 0 65536*11
create snap 0 128 snapshot base cow P 1
write vol 0 2560*aa
start vol write 5 512*aa
step vol copy-read 6
step vol copy-write 6
step vol flush-store snap
step vol write-area snap
step vol flush-store snap
stop vol
create vol 0 128 snapshot-origin base
create snap 0 128 snapshot base cow P 1
status snap
read snap 0 128
read vol 0 128
remove snap
remove vol
remove base
remove cow
disk base 128
disk cow 64
create vol 0 128 snapshot-origin base
write vol 0 65536*11
create snap 0 128 snapshot base cow P 1
write vol 0 2560*aa
start vol write 5 512*aa
step vol copy-read 6
step vol copy-write 6
step vol flush-store snap
step vol write-area snap
step vol flush-store snap
step vol publish 6
stop vol
create vol 0 128 snapshot-origin base
create snap 0 128 snapshot base cow P 1
status snap
read snap 0 128
read vol 0 128
remove snap
remove vol
remove base
remove cow
disk base 128
disk cow 64
create vol 0 128 snapshot-origin base
write vol 0 65536*11
create snap 0 128 snapshot base cow P 1
write vol 0 2560*aa
start vol write 5 512*aa
step vol copy-read 6
step vol copy-write 6
step vol flush-store snap
step vol write-area snap
step vol flush-store snap
step vol publish 6
step vol issue 7
stop vol
create vol 0 128 snapshot-origin base
create snap 0 128 snapshot base cow P 1
status snap
read snap 0 128
read vol 0 128
remove snap
remove vol
remove base
remove cow
disk base 128
disk cow 64
create vol 0 128 snapshot-origin base
write vol 0 65536*11
create snap 0 128 snapshot base cow P 1
write vol 0 3072*aa
start vol write 6 512*aa
stop vol
create vol 0 128 snapshot-origin base
create snap 0 128 snapshot base cow P 1
status snap
read snap 0 128
read vol 0 128
remove snap
remove vol
remove base
remove cow
disk base 128
disk cow 64
create vol 0 128 snapshot-origin base
write vol 0 65536*11
create snap 0 128 snapshot base cow P 1
write vol 0 3072*aa
start vol write 6 512*aa
step vol copy-read 7
stop vol
create vol 0 128 snapshot-origin base
create snap 0 128 snapshot base cow P 1
status snap
read snap 0 128
read vol 0 128
remove snap
remove vol
remove base
remove cow
disk base 128
disk cow 64
create vol 0 128 snapshot-origin base
write vol 0 65536*11
create snap 0 128 snapshot base cow P 1
write vol 0 3072*aa
start vol write 6 512*aa
step vol copy-read 7
step vol copy-write 7
stop vol
create vol 0 128 snapshot-origin base
create snap 0 128 snapshot base cow P 1
status snap
read snap 0 128
read vol 0 128
remove snap
remove vol
remove base
remove cow
disk base 128
disk cow 64
create vol 0 128 snapshot-origin base
write vol 0 65536*11
create snap 0 128 snapshot base cow P 1
write vol 0 3072*aa
start vol write 6 512*aa
step vol copy-read 7
step vol copy-write 7
step vol flush-store snap
stop vol
create vol 0 128 snapshot-origin base
create snap 0 128 snapshot base cow P 1
status snap
read snap 0 128
read vol 0 128
remove snap
remove vol
remove base
remove cow
disk base 128
disk cow 64
create vol 0 128 snapshot-origin base
write vol 0 65536*11
create snap 0 128 snapshot base cow P 1
write vol 0 3072*aa
start vol write 6 512*aa
step vol copy-read 7
step vol copy-write 7
step vol flush-store snap
step vol write-area snap
stop vol
create vol 0 128 snapshot-origin base
create snap 0 128 snapshot base cow P 1
status snap
read snap 0 128
read vol 0 128
remove snap
remove vol
remove base
remove cow
disk base 128
disk cow 64
create vol 0 128 snapshot-origin base
write vol 0 65536*11
create snap 0 128 snapshot base cow P 1
write vol 0 3072*aa
start vol write 6 512*aa
step vol copy-read 7
step vol copy-write 7
step vol flush-store snap
step vol write-area snap
step vol flush-store snap
stop vol
create vol 0 128 snapshot-origin base
create snap 0 128 snapshot base cow P 1
status snap
read snap 0 128
read vol 0 128
remove snap
remove vol
remove base
remove cow
disk base 128
disk cow 64
create vol 0 128 snapshot-origin base
write vol 0 65536*11
create snap 0 128 snapshot base cow P 1
write vol 0 3072*aa
start vol write 6 512*aa
step vol copy-read 7
step vol copy-write 7
step vol flush-store snap
step vol write-area snap
step vol flush-store snap
step vol publish 7
stop vol
create vol 0 128 snapshot-origin base
create snap 0 128 snapshot base cow P 1
status snap
read snap 0 128
read vol 0 128
remove snap
remove vol
remove base
remove cow
disk base 128
disk cow 64
create vol 0 128 snapshot-origin base
write vol 0 65536*11
create snap 0 128 snapshot base cow P 1
write vol 0 3072*aa
start vol write 6 512*aa
step vol copy-read 7
step vol copy-write 7
step vol flush-store snap
step vol write-area snap
step vol flush-store snap
step vol publish 7
step vol issue 8
stop vol
create vol 0 128 snapshot-origin base
create snap 0 128 snapshot base cow P 1
status snap
read snap 0 128
read vol 0 128
remove snap
remove vol
remove base
remove cow
disk base 128
disk cow 64
create vol 0 128 snapshot-origin base
write vol 0 65536*11
create snap 0 128 snapshot base cow P 1
write vol 0 3584*aa
start vol write 7 512*aa
stop vol
create vol 0 128 snapshot-origin base
create snap 0 128 snapshot base cow P 1
status snap
read snap 0 128
read vol 0 128
remove snap
remove vol
remove base
remove cow
disk base 128
disk cow 64
create vol 0 128 snapshot-origin base
write vol 0 65536*11
create snap 0 128 snapshot base cow P 1
write vol 0 3584*aa
start vol write 7 512*aa
step vol copy-read 8
stop vol
create vol 0 128 snapshot-origin base
create snap 0 128 snapshot base cow P 1
status snap
read snap 0 128
read vol 0 128
remove snap
remove vol
remove base
remove cow
disk base 128
disk cow 64
create vol 0 128 snapshot-origin base
write vol 0 65536*11
create snap 0 128 snapshot base cow P 1
write vol 0 3584*aa
start vol write 7 512*aa
step vol copy-read 8
step vol copy-write 8
stop vol
create vol 0 128 snapshot-origin base
create snap 0 128 snapshot base cow P 1
status snap
read snap 0 128
read vol 0 128
remove snap
remove vol
remove base
remove cow
disk base 128
disk cow 64
create vol 0 128 snapshot-origin base
write vol 0 65536*11
create snap 0 128 snapshot base cow P 1
write vol 0 3584*aa
start vol write 7 512*aa
step vol copy-read 8
step vol copy-write 8
step vol flush-store snap
stop vol
create vol 0 128 snapshot-origin base
create snap 0 128 snapshot base cow P 1
status snap
read snap 0 128
read vol 0 128
remove snap
remove vol
remove base
remove cow
disk base 128
disk cow 64
create vol 0 128 snapshot-origin base
write vol 0 65536*11
create snap 0 128 snapshot base cow P 1
write vol 0 3584*aa
start vol write 7 512*aa
step vol copy-read 8
step vol copy-write 8
step vol flush-store snap
step vol write-area snap
stop vol
create vol 0 128 snapshot-origin base
create snap 0 128 snapshot base cow P 1
status snap
read snap 0 128
read vol 0 128
remove snap
remove vol
remove base
remove cow
disk base 128
disk cow 64
create vol 0 128 snapshot-origin base
write vol 0 65536*11
create snap 0 128 snapshot base cow P 1
write vol 0 3584*aa
start vol write 7 512*aa
step vol copy-read 8
step vol copy-write 8
step vol flush-store snap
step vol write-area snap
step vol flush-store snap
stop vol
create vol 0 128 snapshot-origin base
create snap 0 128 snapshot base cow P 1
status snap
read snap 0 128
read vol 0 128
remove snap
remove vol
remove base
remove cow
disk base 128
disk cow 64
create vol 0 128 snapshot-origin base
write vol 0 65536*11
create snap 0 128 snapshot base cow P 1
write vol 0 3584*aa
start vol write 7 512*aa
step vol copy-read 8
step vol copy-write 8
step vol flush-store snap
step vol write-area snap
step vol flush-store snap
step vol publish 8
stop vol
create vol 0 128 snapshot-origin base
create snap 0 128 snapshot base cow P 1
status snap
read snap 0 128
read vol 0 128
remove snap
remove vol
remove base
remove cow
disk base 128
disk cow 64
create vol 0 128 snapshot-origin base
write vol 0 65536*11
create snap 0 128 snapshot base cow P 1
write vol 0 3584*aa
start vol write 7 512*aa
step vol copy-read 8
step vol copy-write 8
step vol flush-store snap
step vol write-area snap
step vol flush-store snap
step vol publish 8
step vol issue 9
stop vol
create vol 0 128 snapshot-origin base
create snap 0 128 snapshot base cow P 1
status snap
read snap 0 128
read vol 0 128
remove snap
remove vol
remove base
remove cow
disk base 128
disk cow 64
create vol 0 128 snapshot-origin base
write vol 0 65536*11
create snap 0 128 snapshot base cow P 1
write vol 0 4096*aa
start vol write 8 512*aa
stop vol
create vol 0 128 snapshot-origin base
create snap 0 128 snapshot base cow P 1
status snap
read snap 0 128
read vol 0 128
remove snap
remove vol
remove base
remove cow
disk base 128
disk cow 64
create vol 0 128 snapshot-origin base
write vol 0 65536*11
create snap 0 128 snapshot base cow P 1
write vol 0 4096*aa
start vol write 8 512*aa
step vol copy-read 9
stop vol
create vol 0 128 snapshot-origin base
create snap 0 128 snapshot base cow P 1
status snap
read snap 0 128
read vol 0 128
remove snap
remove vol
remove base
remove cow
disk base 128
disk cow 64
create vol 0 128 snapshot-origin base
write vol 0 65536*11
create snap 0 128 snapshot base cow P 1
write vol 0 4096*aa
start vol write 8 512*aa
step vol copy-read 9
step vol copy-write 9
stop vol
create vol 0 128 snapshot-origin base
create snap 0 128 snapshot base cow P 1
status snap
read snap 0 128
read vol 0 128
remove snap
remove vol
remove base
remove cow
disk base 128
disk cow 64
create vol 0 128 snapshot-origin base
write vol 0 65536*11
create snap 0 128 snapshot base cow P 1
write vol 0 4096*aa
start vol write 8 512*aa
step vol copy-read 9
step vol copy-write 9
step vol flush-store snap
stop vol
create vol 0 128 snapshot-origin base
create snap 0 128 snapshot base cow P 1
status snap
read snap 0 128
read vol 0 128
remove snap
remove vol
remove base
remove cow
disk base 128
disk cow 64
create vol 0 128 snapshot-origin base
write vol 0 65536*11
create snap 0 128 snapshot base cow P 1
write vol 0 4096*aa
start vol write 8 512*aa
step vol copy-read 9
step vol copy-write 9
step vol flush-store snap
step vol write-area snap
stop vol
create vol 0 128 snapshot-origin base
create snap 0 128 snapshot base cow P 1
status snap
read snap 0 128
read vol 0 128
remove snap
remove vol
remove base
remove cow
disk base 128
disk cow 64
create vol 0 128 snapshot-origin base
write vol 0 65536*11
create snap 0 128 snapshot base cow P 1
write vol 0 4096*aa
start vol write 8 512*aa
step vol copy-read 9
step vol copy-write 9
step vol flush-store snap
step vol write-area snap
step vol flush-store snap
stop vol
create vol 0 128 snapshot-origin base
create snap 0 128 snapshot base cow P 1
status snap
read snap 0 128
read vol 0 128
remove snap
remove vol
remove base
remove cow
disk base 128
disk cow 64
create vol 0 128 snapshot-origin base
write vol 0 65536*11
create snap 0 128 snapshot base cow P 1
write vol 0 4096*aa
start vol write 8 512*aa
step vol copy-read 9
step vol copy-write 9
step vol flush-store snap
step vol write-area snap
step vol flush-store snap
step vol publish 9
stop vol
create vol 0 128 snapshot-origin base
create snap 0 128 snapshot base cow P 1
status snap
read snap 0 128
read vol 0 128
remove snap
remove vol
remove base
remove cow
disk base 128
disk cow 64
create vol 0 128 snapshot-origin base
write vol 0 65536*11
create snap 0 128 snapshot base cow P 1
write vol 0 4096*aa
start vol write 8 512*aa
step vol copy-read 9
step vol copy-write 9
step vol flush-store snap
step vol write-area snap
step vol flush-store snap
step vol publish 9
step vol issue 10
stop vol
create vol 0 128 snapshot-origin base
create snap 0 128 snapshot base cow P 1
status snap
read snap 0 128
read vol 0 128
remove snap
remove vol
remove base
remove cow
disk base 128
disk cow 64
create vol 0 128 snapshot-origin base
write vol 0 65536*11
create snap 0 128 snapshot base cow P 1
write vol 0 4608*aa
start vol write 9 512*aa
stop vol
create vol 0 128 snapshot-origin base
create snap 0 128 snapshot base cow P 1
status snap
read snap 0 128
read vol 0 128
remove snap
remove vol
remove base
remove cow
disk base 128
disk cow 64
create vol 0 128 snapshot-origin base
write vol 0 65536*11
create snap 0 128 snapshot base cow P 1
write vol 0 4608*aa
start vol write 9 512*aa
step vol copy-read 10
stop vol
create vol 0 128 snapshot-origin base
create snap 0 128 snapshot base cow P 1
status snap
read snap 0 128
read vol 0 128
remove snap
remove vol
remove base
remove cow
disk base 128
disk cow 64
create vol 0 128 snapshot-origin base
write vol 0 65536*11
create snap 0 128 snapshot base cow P 1
write vol 0 4608*aa
start vol write 9 512*aa
step vol copy-read 10
step vol copy-write 10
stop vol
create vol 0 128 snapshot-origin base
create snap 0 128 snapshot base cow P 1
status snap
read snap 0 128
read vol 0 128
remove snap
remove vol
remove base
remove cow
disk base 128
disk cow 64
create vol 0 128 snapshot-origin base
write vol 0 65536*11
create snap 0 128 snapshot base cow P 1
write vol 0 4608*aa
start vol write 9 512*aa
step vol copy-read 10
step vol copy-write 10
step vol flush-store snap
stop vol
create vol 0 128 snapshot-origin base
create snap 0 128 snapshot base cow P 1
status snap
read snap 0 128
read vol 0 128
remove snap
remove vol
remove base
remove cow
disk base 128
disk cow 64
create vol 0 128 snapshot-origin base
write vol 0 65536*11
create snap 0 128 snapshot base cow P 1
write vol 0 4608*aa
start vol write 9 512*aa
step vol copy-read 10
step vol copy-write 10
step vol flush-store snap
step vol write-area snap
stop vol
create vol 0 128 snapshot-origin base
create snap 0 128 snapshot base cow P 1
status snap
read snap 0 128
read vol 0 128
remove snap
remove vol
remove base
remove cow
disk base 128
disk cow 64
create vol 0 128 snapshot-origin base
write vol 0 65536*11
create snap 0 128 snapshot base cow P 1
write vol 0 4608*aa
start vol write 9 512*aa
step vol copy-read 10
step vol copy-write 10
step vol flush-store snap
step vol write-area snap
step vol flush-store snap
stop vol
create vol 0 128 snapshot-origin base
create snap 0 128 snapshot base cow P 1
status snap
read snap 0 128
read vol 0 128
remove snap
remove vol
remove base
remove cow
disk base 128
disk cow 64
create vol 0 128 snapshot-origin base
write vol 0 65536*11
create snap 0 128 snapshot base cow P 1
write vol 0 4608*aa
start vol write 9 512*aa
step vol copy-read 10
step vol copy-write 10
step vol flush-store snap
step vol write-area snap
step vol flush-store snap
step vol publish 10
stop vol
create vol 0 128 snapshot-origin base
create snap 0 128 snapshot base cow P 1
status snap
read snap 0 128
read vol 0 128
remove snap
remove vol
remove base
remove cow
disk base 128
disk cow 64
create vol 0 128 snapshot-origin base
write vol 0 65536*11
create snap 0 128 snapshot base cow P 1
write vol 0 4608*aa
start vol write 9 512*aa
step vol copy-read 10
step vol copy-write 10
step vol flush-store snap
step vol write-area snap
step vol flush-store snap
step vol publish 10
step vol issue 11
stop vol
create vol 0 128 snapshot-origin base
create snap 0 128 snapshot base cow P 1
status snap
read snap 0 128
read vol 0 128
remove snap
remove vol
remove base
remove cow
disk base 128
disk cow 64
create vol 0 128 snapshot-origin base
write vol 0 65536*11
create snap 0 128 snapshot base cow P 1
write vol 0 5120*aa
start vol write 10 512*aa
stop vol
create vol 0 128 snapshot-origin base
create snap 0 128 snapshot base cow P 1
status snap
read snap 0 128
read vol 0 128
remove snap
remove vol
remove base
remove cow
disk base 128
disk cow 64
create vol 0 128 snapshot-origin base
write vol 0 65536*11
create snap 0 128 snapshot base cow P 1
write vol 0 5120*aa
start vol write 10 512*aa
step vol copy-read 11
stop vol
create vol 0 128 snapshot-origin base
create snap 0 128 snapshot base cow P 1
status snap
read snap 0 128
read vol 0 128
remove snap
remove vol
remove base
remove cow
disk base 128
disk cow 64
create vol 0 128 snapshot-origin base
write vol 0 65536*11
create snap 0 128 snapshot base cow P 1
write vol 0 5120*aa
start vol write 10 512*aa
step vol copy-read 11
step vol copy-write 11
stop vol
create vol 0 128 snapshot-origin base
create snap 0 128 snapshot base cow P 1
status snap
read snap 0 128
read vol 0 128
remove snap
remove vol
remove base
remove cow
disk base 128
disk cow 64
create vol 0 128 snapshot-origin base
write vol 0 65536*11
create snap 0 128 snapshot base cow P 1
write vol 0 5120*aa
start vol write 10 512*aa
step vol copy-read 11
step vol copy-write 11
step vol flush-store snap
stop vol
create vol 0 128 snapshot-origin base
create snap 0 128 snapshot base cow P 1
status snap
read snap 0 128
read vol 0 128
remove snap
remove vol
remove base
remove cow
disk base 128
disk cow 64
create vol 0 128 snapshot-origin base
write vol 0 65536*11
create snap 0 128 snapshot base cow P 1
write vol 0 5120*aa
start vol write 10 512*aa
step vol copy-read 11
step vol copy-write 11
step vol flush-store snap
step vol write-area snap
stop vol
create vol 0 128 snapshot-origin base
create snap 0 128 snapshot base cow P 1
status snap
read snap 0 128
read vol 0 128
remove snap
remove vol
remove base
remove cow
disk base 128
disk cow 64
create vol 0 128 snapshot-origin base
write vol 0 65536*11
create snap 0 128 snapshot base cow P 1
write vol 0 5120*aa
start vol write 10 512*aa
step vol copy-read 11
step vol copy-write 11
step vol flush-store snap
step vol write-area snap
step vol flush-store snap
stop vol
create vol 0 128 snapshot-origin base
create snap 0 128 snapshot base cow P 1
status snap
read snap 0 128
read vol 0 128
remove snap
remove vol
remove base
remove cow
disk base 128
disk cow 64
create vol 0 128 snapshot-origin base
write vol 0 65536*11
create snap 0 128 snapshot base cow P 1
write vol 0 5120*aa
start vol write 10 512*aa
step vol copy-read 11
step vol copy-write 11
step vol flush-store snap
step vol write-area snap
step vol flush-store snap
step vol publish 11
stop vol
create vol 0 128 snapshot-origin base
create snap 0 128 snapshot base cow P 1
status snap
read snap 0 128
read vol 0 128
remove snap
remove vol
remove base
remove cow
disk base 128
disk cow 64
create vol 0 128 snapshot-origin base
write vol 0 65536*11
create snap 0 128 snapshot base cow P 1
write vol 0 5120*aa
start vol write 10 512*aa
step vol copy-read 11
step vol copy-write 11
step vol flush-store snap
step vol write-area snap
step vol flush-store snap
step vol publish 11
step vol issue 12
stop vol
create vol 0 128 snapshot-origin base
create snap 0 128 snapshot base cow P 1
status snap
read snap 0 128
read vol 0 128
remove snap
remove vol
remove base
remove cow
disk base 128
disk cow 64
create vol 0 128 snapshot-origin base
write vol 0 65536*11
create snap 0 128 snapshot base cow P 1
write vol 0 5632*aa
start vol write 11 512*aa
stop vol
create vol 0 128 snapshot-origin base
create snap 0 128 snapshot base cow P 1
status snap
read snap 0 128
read vol 0 128
remove snap
remove vol
remove base
remove cow
disk base 128
disk cow 64
create vol 0 128 snapshot-origin base
write vol 0 65536*11
create snap 0 128 snapshot base cow P 1
write vol 0 5632*aa
start vol write 11 512*aa
step vol copy-read 12
stop vol
create vol 0 128 snapshot-origin base
create snap 0 128 snapshot base cow P 1
status snap
read snap 0 128
read vol 0 128
remove snap
remove vol
remove base
remove cow
disk base 128
disk cow 64
create vol 0 128 snapshot-origin base
write vol 0 65536*11
create snap 0 128 snapshot base cow P 1
write vol 0 5632*aa
start vol write 11 512*aa
step vol copy-read 12
step vol copy-write 12
stop vol
create vol 0 128 snapshot-origin base
create snap 0 128 snapshot base cow P 1
status snap
read snap 0 128
read vol 0 128
remove snap
remove vol
remove base
remove cow
disk base 128
disk cow 64
create vol 0 128 snapshot-origin base
write vol 0 65536*11
create snap 0 128 snapshot base cow P 1
write vol 0 5632*aa
start vol write 11 512*aa
step vol copy-read 12
step vol copy-write 12
step vol flush-store snap
stop vol
create vol 0 128 snapshot-origin base
create snap 0 128 snapshot base cow P 1
status snap
read snap 0 128
read vol 0 128
remove snap
remove vol
remove base
remove cow
disk base 128
disk cow 64
create vol 0 128 snapshot-origin base
write vol 0 65536*11
create snap 0 128 snapshot base cow P 1
write vol 0 5632*aa
start vol write 11 512*aa
step vol copy-read 12
step vol copy-write 12
step vol flush-store snap
step vol write-area snap
stop vol
create vol 0 128 snapshot-origin base
create snap 0 128 snapshot base cow P 1
status snap
read snap 0 128
read vol 0 128
remove snap
remove vol
remove base
remove cow
disk base 128
disk cow 64
create vol 0 128 snapshot-origin base
write vol 0 65536*11
create snap 0 128 snapshot base cow P 1
write vol 0 5632*aa
start vol write 11 512*aa
step vol copy-read 12
step vol copy-write 12
step vol flush-store snap
step vol write-area snap
step vol flush-store snap
stop vol
create vol 0 128 snapshot-origin base
create snap 0 128 snapshot base cow P 1
status snap
read snap 0 128
read vol 0 128
remove snap
remove vol
remove base
remove cow
disk base 128
disk cow 64
create vol 0 128 snapshot-origin base
write vol 0 65536*11
create snap 0 128 snapshot base cow P 1
write vol 0 5632*aa
start vol write 11 512*aa
step vol copy-read 12
step vol copy-write 12
step vol flush-store snap
step vol write-area snap
step vol flush-store snap
step vol publish 12
stop vol
create vol 0 128 snapshot-origin base
create snap 0 128 snapshot base cow P 1
status snap
read snap 0 128
read vol 0 128
remove snap
remove vol
remove base
remove cow
disk base 128
disk cow 64
create vol 0 128 snapshot-origin base
write vol 0 65536*11
create snap 0 128 snapshot base cow P 1
write vol 0 5632*aa
start vol write 11 512*aa
step vol copy-read 12
step vol copy-write 12
step vol flush-store snap
step vol write-area snap
step vol flush-store snap
step vol publish 12
step vol issue 13
stop vol
create vol 0 128 snapshot-origin base
create snap 0 128 snapshot base cow P 1
status snap
read snap 0 128
read vol 0 128
remove snap
remove vol
remove base
remove cow
disk base 128
disk cow 64
create vol 0 128 snapshot-origin base
write vol 0 65536*11
create snap 0 128 snapshot base cow P 1
write vol 0 6144*aa
start vol write 12 512*aa
stop vol
create vol 0 128 snapshot-origin base
create snap 0 128 snapshot base cow P 1
status snap
read snap 0 128
read vol 0 128
remove snap
remove vol
remove base
remove cow
disk base 128
disk cow 64
create vol 0 128 snapshot-origin base
write vol 0 65536*11
create snap 0 128 snapshot base cow P 1
write vol 0 6144*aa
start vol write 12 512*aa
step vol copy-read 13
stop vol
create vol 0 128 snapshot-origin base
create snap 0 128 snapshot base cow P 1
status snap
read snap 0 128
read vol 0 128
remove snap
remove vol
remove base
remove cow
disk base 128
disk cow 64
create vol 0 128 snapshot-origin base
write vol 0 65536*11
create snap 0 128 snapshot base cow P 1
write vol 0 6144*aa
start vol write 12 512*aa
step vol copy-read 13
step vol copy-write 13
stop vol
create vol 0 128 snapshot-origin base
create snap 0 128 snapshot base cow P 1
status snap
read snap 0 128
read vol 0 128
remove snap
remove vol
remove base
remove cow
disk base 128
disk cow 64
create vol 0 128 snapshot-origin base
write vol 0 65536*11
create snap 0 128 snapshot base cow P 1
write vol 0 6144*aa
start vol write 12 512*aa
step vol copy-read 13
step vol copy-write 13
step vol flush-store snap
stop vol
create vol 0 128 snapshot-origin base
create snap 0 128 snapshot base cow P 1
status snap
read snap 0 128
read vol 0 128
remove snap
remove vol
remove base
remove cow
disk base 128
disk cow 64
create vol 0 128 snapshot-origin base
write vol 0 65536*11
create snap 0 128 snapshot base cow P 1
write vol 0 6144*aa
start vol write 12 512*aa
step vol copy-read 13
step vol copy-write 13
step vol flush-store snap
step vol write-area snap
stop vol
create vol 0 128 snapshot-origin base
create snap 0 128 snapshot base cow P 1
status snap
read snap 0 128
read vol 0 128
remove snap
remove vol
remove base
remove cow
disk base 128
disk cow 64
create vol 0 128 snapshot-origin base
write vol 0 65536*11
create snap 0 128 snapshot base cow P 1
write vol 0 6144*aa
start vol write 12 512*aa
step vol copy-read 13
step vol copy-write 13
step vol flush-store snap
step vol write-area snap
step vol flush-store snap
stop vol
create vol 0 128 snapshot-origin base
create snap 0 128 snapshot base cow P 1
status snap
read snap 0 128
read vol 0 128
remove snap
remove vol
remove base
remove cow
disk base 128
disk cow 64
create vol 0 128 snapshot-origin base
write vol 0 65536*11
create snap 0 128 snapshot base cow P 1
write vol 0 6144*aa
start vol write 12 512*aa
step vol copy-read 13
step vol copy-write 13
step vol flush-store snap
step vol write-area snap
step vol flush-store snap
step vol publish 13
stop vol
create vol 0 128 snapshot-origin base
create snap 0 128 snapshot base cow P 1
status snap
read snap 0 128
read vol 0 128
remove snap
remove vol
remove base
remove cow
disk base 128
disk cow 64
create vol 0 128 snapshot-origin base
write vol 0 65536*11
create snap 0 128 snapshot base cow P 1
write vol 0 6144*aa
start vol write 12 512*aa
step vol copy-read 13
step vol copy-write 13
step vol flush-store snap
step vol write-area snap
step vol flush-store snap
step vol publish 13
step vol issue 14
stop vol
create vol 0 128 snapshot-origin base
create snap 0 128 snapshot base cow P 1
status snap
read snap 0 128
read vol 0 128
remove snap
remove vol
remove base
remove cow
disk base 128
disk cow 64
create vol 0 128 snapshot-origin base
write vol 0 65536*11
create snap 0 128 snapshot base cow P 1
write vol 0 6656*aa
start vol write 13 512*aa
stop vol
create vol 0 128 snapshot-origin base
create snap 0 128 snapshot base cow P 1
status snap
read snap 0 128
read vol 0 128
remove snap
remove vol
remove base
remove cow
disk base 128
disk cow 64
create vol 0 128 snapshot-origin base
write vol 0 65536*11
create snap 0 128 snapshot base cow P 1
write vol 0 6656*aa
start vol write 13 512*aa
step vol copy-read 14
stop vol
create vol 0 128 snapshot-origin base
create snap 0 128 snapshot base cow P 1
status snap
read snap 0 128
read vol 0 128
remove snap
remove vol
remove base
remove cow
disk base 128
disk cow 64
create vol 0 128 snapshot-origin base
write vol 0 65536*11
create snap 0 128 snapshot base cow P 1
write vol 0 6656*aa
start vol write 13 512*aa
step vol copy-read 14
step vol copy-write 14
stop vol
create vol 0 128 snapshot-origin base
create snap 0 128 snapshot base cow P 1
status snap
read snap 0 128
read vol 0 128
remove snap
remove vol
remove base
remove cow
disk base 128
disk cow 64
create vol 0 128 snapshot-origin base
write vol 0 65536*11
create snap 0 128 snapshot base cow P 1
write vol 0 6656*aa
start vol write 13 512*aa
step vol copy-read 14
step vol copy-write 14
step vol flush-store snap
stop vol
create vol 0 128 snapshot-origin base
create snap 0 128 snapshot base cow P 1
status snap
read snap 0 128
read vol 0 128
remove snap
remove vol
remove base
remove cow
disk base 128
disk cow 64
create vol 0 128 snapshot-origin base
write vol 0 65536*11
create snap 0 128 snapshot base cow P 1
write vol 0 6656*aa
start vol write 13 512*aa
step vol copy-read 14
step vol copy-write 14
step vol flush-store snap
step vol write-area snap
stop vol
create vol 0 128 snapshot-origin base
create snap 0 128 snapshot base cow P 1
status snap
read snap 0 128
read vol 0 128
remove snap
remove vol
remove base
remove cow
disk base 128
disk cow 64
create vol 0 128 snapshot-origin base
write vol 0 65536*11
create snap 0 128 snapshot base cow P 1
write vol 0 6656*aa
start vol write 13 512*aa
step vol copy-read 14
step vol copy-write 14
step vol flush-store snap
step vol write-area snap
step vol flush-store snap
stop vol
create vol 0 128 snapshot-origin base
create snap 0 128 snapshot base cow P 1
status snap
read snap 0 128
read vol 0 128
remove snap
remove vol
remove base
remove cow
disk base 128
disk cow 64
create vol 0 128 snapshot-origin base
write vol 0 65536*11
create snap 0 128 snapshot base cow P 1
write vol 0 6656*aa
start vol write 13 512*aa
step vol copy-read 14
step vol copy-write 14
step vol flush-store snap
step vol write-area snap
step vol flush-store snap
step vol publish 14
stop vol
create vol 0 128 snapshot-origin base
create snap 0 128 snapshot base cow P 1
status snap
read snap 0 128
read vol 0 128
remove snap
remove vol
remove base
remove cow
disk base 128
disk cow 64
create vol 0 128 snapshot-origin base
write vol 0 65536*11
create snap 0 128 snapshot base cow P 1
write vol 0 6656*aa
start vol write 13 512*aa
step vol copy-read 14
step vol copy-write 14
step vol flush-store snap
step vol write-area snap
step vol flush-store snap
step vol publish 14
step vol issue 15
stop vol
create vol 0 128 snapshot-origin base
create snap 0 128 snapshot base cow P 1
status snap
read snap 0 128
read vol 0 128
remove snap
remove vol
remove base
remove cow
disk base 128
disk cow 64
create vol 0 128 snapshot-origin base
write vol 0 65536*11
create snap 0 128 snapshot base cow P 1
write vol 0 7168*aa
start vol write 14 512*aa
stop vol
create vol 0 128 snapshot-origin base
create snap 0 128 snapshot base cow P 1
status snap
read snap 0 128
read vol 0 128
remove snap
remove vol
remove base
remove cow
disk base 128
disk cow 64
create vol 0 128 snapshot-origin base
write vol 0 65536*11
create snap 0 128 snapshot base cow P 1
write vol 0 7168*aa
start vol write 14 512*aa
step vol copy-read 15
stop vol
create vol 0 128 snapshot-origin base
create snap 0 128 snapshot base cow P 1
status snap
read snap 0 128
read vol 0 128
remove snap
remove vol
remove base
remove cow
disk base 128
disk cow 64
create vol 0 128 snapshot-origin base
write vol 0 65536*11
create snap 0 128 snapshot base cow P 1
write vol 0 7168*aa
start vol write 14 512*aa
step vol copy-read 15
step vol copy-write 15
stop vol
create vol 0 128 snapshot-origin base
create snap 0 128 snapshot base cow P 1
status snap
read snap 0 128
read vol 0 128
remove snap
remove vol
remove base
remove cow
disk base 128
disk cow 64
create vol 0 128 snapshot-origin base
write vol 0 65536*11
create snap 0 128 snapshot base cow P 1
write vol 0 7168*aa
start vol write 14 512*aa
step vol copy-read 15
step vol copy-write 15
step vol flush-store snap
stop vol
create vol 0 128 snapshot-origin base
create snap 0 128 snapshot base cow P 1
status snap
read snap 0 128
read vol 0 128
remove snap
remove vol
remove base
remove cow
disk base 128
disk cow 64
create vol 0 128 snapshot-origin base
write vol 0 65536*11
create snap 0 128 snapshot base cow P 1
write vol 0 7168*aa
start vol write 14 512*aa
step vol copy-read 15
step vol copy-write 15
step vol flush-store snap
step vol write-area snap
stop vol
create vol 0 128 snapshot-origin base
create snap 0 128 snapshot base cow P 1
status snap
read snap 0 128
read vol 0 128
remove snap
remove vol
remove base
remove cow
disk base 128
disk cow 64
create vol 0 128 snapshot-origin base
write vol 0 65536*11
create snap 0 128 snapshot base cow P 1
write vol 0 7168*aa
start vol write 14 512*aa
step vol copy-read 15
step vol copy-write 15
step vol flush-store snap
step vol write-area snap
step vol flush-store snap
stop vol
create vol 0 128 snapshot-origin base
create snap 0 128 snapshot base cow P 1
status snap
read snap 0 128
read vol 0 128
remove snap
remove vol
remove base
remove cow
disk base 128
disk cow 64
create vol 0 128 snapshot-origin base
write vol 0 65536*11
create snap 0 128 snapshot base cow P 1
write vol 0 7168*aa
start vol write 14 512*aa
step vol copy-read 15
step vol copy-write 15
step vol flush-store snap
step vol write-area snap
step vol flush-store snap
step vol publish 15
stop vol
create vol 0 128 snapshot-origin base
create snap 0 128 snapshot base cow P 1
status snap
read snap 0 128
read vol 0 128
remove snap
remove vol
remove base
remove cow
disk base 128
disk cow 64
create vol 0 128 snapshot-origin base
write vol 0 65536*11
create snap 0 128 snapshot base cow P 1
write vol 0 7168*aa
start vol write 14 512*aa
step vol copy-read 15
step vol copy-write 15
step vol flush-store snap
step vol write-area snap
step vol flush-store snap
step vol publish 15
step vol issue 16
stop vol
create vol 0 128 snapshot-origin base
create snap 0 128 snapshot base cow P 1
status snap
read snap 0 128
read vol 0 128
remove snap
remove vol
remove base
remove cow
disk base 128
disk cow 64
create vol 0 128 snapshot-origin base
write vol 0 65536*11
create snap 0 128 snapshot base cow P 1
write vol 0 7680*aa
start vol write 15 512*aa
stop vol
create vol 0 128 snapshot-origin base
create snap 0 128 snapshot base cow P 1
status snap
read snap 0 128
read vol 0 128
remove snap
remove vol
remove base
remove cow
disk base 128
disk cow 64
create vol 0 128 snapshot-origin base
write vol 0 65536*11
create snap 0 128 snapshot base cow P 1
write vol 0 7680*aa
start vol write 15 512*aa
step vol copy-read 16
stop vol
create vol 0 128 snapshot-origin base
create snap 0 128 snapshot base cow P 1
status snap
read snap 0 128
read vol 0 128
remove snap
remove vol
remove base
remove cow
disk base 128
disk cow 64
create vol 0 128 snapshot-origin base
write vol 0 65536*11
create snap 0 128 snapshot base cow P 1
write vol 0 7680*aa
start vol write 15 512*aa
step vol copy-read 16
step vol copy-write 16
stop vol
create vol 0 128 snapshot-origin base
create snap 0 128 snapshot base cow P 1
status snap
read snap 0 128
read vol 0 128
remove snap
remove vol
remove base
remove cow
disk base 128
disk cow 64
create vol 0 128 snapshot-origin base
write vol 0 65536*11
create snap 0 128 snapshot base cow P 1
write vol 0 7680*aa
start vol write 15 512*aa
step vol copy-read 16
step vol copy-write 16
step vol flush-store snap
stop vol
create vol 0 128 snapshot-origin base
create snap 0 128 snapshot base cow P 1
status snap
read snap 0 128
read vol 0 128
remove snap
remove vol
remove base
remove cow
disk base 128
disk cow 64
create vol 0 128 snapshot-origin base
write vol 0 65536*11
create snap 0 128 snapshot base cow P 1
write vol 0 7680*aa
start vol write 15 512*aa
step vol copy-read 16
step vol copy-write 16
step vol flush-store snap
step vol write-area snap
stop vol
create vol 0 128 snapshot-origin base
create snap 0 128 snapshot base cow P 1
status snap
read snap 0 128
read vol 0 128
remove snap
remove vol
remove base
remove cow
disk base 128
disk cow 64
create vol 0 128 snapshot-origin base
write vol 0 65536*11
create snap 0 128 snapshot base cow P 1
write vol 0 7680*aa
start vol write 15 512*aa
step vol copy-read 16
step vol copy-write 16
step vol flush-store snap
step vol write-area snap
step vol flush-store snap
stop vol
create vol 0 128 snapshot-origin base
create snap 0 128 snapshot base cow P 1
status snap
read snap 0 128
read vol 0 128
remove snap
remove vol
remove base
remove cow
disk base 128
disk cow 64
create vol 0 128 snapshot-origin base
write vol 0 65536*11
create snap 0 128 snapshot base cow P 1
write vol 0 7680*aa
start vol write 15 512*aa
step vol copy-read 16
step vol copy-write 16
step vol flush-store snap
step vol write-area snap
step vol flush-store snap
step vol publish 16
stop vol
create vol 0 128 snapshot-origin base
create snap 0 128 snapshot base cow P 1
status snap
read snap 0 128
read vol 0 128
remove snap
remove vol
remove base
remove cow
disk base 128
disk cow 64
create vol 0 128 snapshot-origin base
write vol 0 65536*11
create snap 0 128 snapshot base cow P 1
write vol 0 7680*aa
start vol write 15 512*aa
step vol copy-read 16
step vol copy-write 16
step vol flush-store snap
step vol write-area snap
step vol flush-store snap
step vol publish 16
step vol issue 17
stop vol
create vol 0 128 snapshot-origin base
create snap 0 128 snapshot base cow P 1
status snap
read snap 0 128
read vol 0 128
remove snap
remove vol
remove base
remove cow
