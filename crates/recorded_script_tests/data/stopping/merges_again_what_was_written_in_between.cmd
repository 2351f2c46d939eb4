# Stopped after each event of a merge and of writes of the origin in between, one held for the group: the snapshot is loaded
# again with what the origin showed, and merged again leaves that on the origin disk.
# By the admin-guide page on snapshots and the persistent store's format; that a volume is stopped by a command is this project's.
disk base 128
disk cow 64
create vol 0 128 snapshot-origin base
write vol 0 65536*11
create snap 0 128 snapshot base cow P 1
write vol 3 512*aa
write vol 8 512*aa
stop vol
create vol 0 128 snapshot-origin base
create snap 0 128 snapshot base cow P 1
status snap
read snap 0 128
read vol 0 128
remove snap
remove vol
remove base
remove cow
disk base 128
disk cow 64
create vol 0 128 snapshot-origin base
write vol 0 65536*11
create snap 0 128 snapshot base cow P 1
write vol 3 512*aa
write vol 8 512*aa
merge snap
stop vol
create vol 0 128 snapshot-origin base
create snap 0 128 snapshot base cow P 1
status snap
read snap 0 128
merge snap
settle vol
finish vol
save base 0 128
remove vol
remove base
remove cow
disk base 128
disk cow 64
create vol 0 128 snapshot-origin base
write vol 0 65536*11
create snap 0 128 snapshot base cow P 1
write vol 3 512*aa
write vol 8 512*aa
merge snap
step vol merge-group
stop vol
create vol 0 128 snapshot-origin base
create snap 0 128 snapshot base cow P 1
status snap
read snap 0 128
merge snap
settle vol
finish vol
save base 0 128
remove vol
remove base
remove cow
disk base 128
disk cow 64
create vol 0 128 snapshot-origin base
write vol 0 65536*11
create snap 0 128 snapshot base cow P 1
write vol 3 512*aa
write vol 8 512*aa
merge snap
step vol merge-group
start vol write 8 512*55
stop vol
create vol 0 128 snapshot-origin base
create snap 0 128 snapshot base cow P 1
status snap
read snap 0 128
merge snap
settle vol
finish vol
save base 0 128
remove vol
remove base
remove cow
disk base 128
disk cow 64
create vol 0 128 snapshot-origin base
write vol 0 65536*11
create snap 0 128 snapshot base cow P 1
write vol 3 512*aa
write vol 8 512*aa
merge snap
step vol merge-group
start vol write 8 512*55
start vol write 3 512*44
stop vol
create vol 0 128 snapshot-origin base
create snap 0 128 snapshot base cow P 1
status snap
read snap 0 128
merge snap
settle vol
finish vol
save base 0 128
remove vol
remove base
remove cow
disk base 128
disk cow 64
create vol 0 128 snapshot-origin base
write vol 0 65536*11
create snap 0 128 snapshot base cow P 1
write vol 3 512*aa
write vol 8 512*aa
merge snap
step vol merge-group
start vol write 8 512*55
start vol write 3 512*44
step vol issue 5
stop vol
create vol 0 128 snapshot-origin base
create snap 0 128 snapshot base cow P 1
status snap
read snap 0 128
merge snap
settle vol
finish vol
save base 0 128
remove vol
remove base
remove cow
disk base 128
disk cow 64
create vol 0 128 snapshot-origin base
write vol 0 65536*11
create snap 0 128 snapshot base cow P 1
write vol 3 512*aa
write vol 8 512*aa
merge snap
step vol merge-group
start vol write 8 512*55
start vol write 3 512*44
step vol issue 5
start vol read 8 1
stop vol
create vol 0 128 snapshot-origin base
create snap 0 128 snapshot base cow P 1
status snap
read snap 0 128
merge snap
settle vol
finish vol
save base 0 128
remove vol
remove base
remove cow
disk base 128
disk cow 64
create vol 0 128 snapshot-origin base
write vol 0 65536*11
create snap 0 128 snapshot base cow P 1
write vol 3 512*aa
write vol 8 512*aa
merge snap
step vol merge-group
start vol write 8 512*55
start vol write 3 512*44
step vol issue 5
start vol read 8 1
step vol issue 6
stop vol
create vol 0 128 snapshot-origin base
create snap 0 128 snapshot base cow P 1
status snap
read snap 0 128
merge snap
settle vol
finish vol
save base 0 128
remove vol
remove base
remove cow
disk base 128
disk cow 64
create vol 0 128 snapshot-origin base
write vol 0 65536*11
create snap 0 128 snapshot base cow P 1
write vol 3 512*aa
write vol 8 512*aa
merge snap
step vol merge-group
start vol write 8 512*55
start vol write 3 512*44
step vol issue 5
start vol read 8 1
step vol issue 6
step vol merge-read
stop vol
create vol 0 128 snapshot-origin base
create snap 0 128 snapshot base cow P 1
status snap
read snap 0 128
merge snap
settle vol
finish vol
save base 0 128
remove vol
remove base
remove cow
disk base 128
disk cow 64
create vol 0 128 snapshot-origin base
write vol 0 65536*11
create snap 0 128 snapshot base cow P 1
write vol 3 512*aa
write vol 8 512*aa
merge snap
step vol merge-group
start vol write 8 512*55
start vol write 3 512*44
step vol issue 5
start vol read 8 1
step vol issue 6
step vol merge-read
step vol merge-write
stop vol
create vol 0 128 snapshot-origin base
create snap 0 128 snapshot base cow P 1
status snap
read snap 0 128
merge snap
settle vol
finish vol
save base 0 128
remove vol
remove base
remove cow
disk base 128
disk cow 64
create vol 0 128 snapshot-origin base
write vol 0 65536*11
create snap 0 128 snapshot base cow P 1
write vol 3 512*aa
write vol 8 512*aa
merge snap
step vol merge-group
start vol write 8 512*55
start vol write 3 512*44
step vol issue 5
start vol read 8 1
step vol issue 6
step vol merge-read
step vol merge-write
step vol merge-flush
stop vol
create vol 0 128 snapshot-origin base
create snap 0 128 snapshot base cow P 1
status snap
read snap 0 128
merge snap
settle vol
finish vol
save base 0 128
remove vol
remove base
remove cow
disk base 128
disk cow 64
create vol 0 128 snapshot-origin base
write vol 0 65536*11
create snap 0 128 snapshot base cow P 1
write vol 3 512*aa
write vol 8 512*aa
merge snap
step vol merge-group
start vol write 8 512*55
start vol write 3 512*44
step vol issue 5
start vol read 8 1
step vol issue 6
step vol merge-read
step vol merge-write
step vol merge-flush
step vol merge-commit
stop vol
create vol 0 128 snapshot-origin base
create snap 0 128 snapshot base cow P 1
status snap
read snap 0 128
merge snap
settle vol
finish vol
save base 0 128
remove vol
remove base
remove cow
disk base 128
disk cow 64
create vol 0 128 snapshot-origin base
write vol 0 65536*11
create snap 0 128 snapshot base cow P 1
write vol 3 512*aa
write vol 8 512*aa
merge snap
step vol merge-group
start vol write 8 512*55
start vol write 3 512*44
step vol issue 5
start vol read 8 1
step vol issue 6
step vol merge-read
step vol merge-write
step vol merge-flush
step vol merge-commit
step vol merge-release
stop vol
create vol 0 128 snapshot-origin base
create snap 0 128 snapshot base cow P 1
status snap
read snap 0 128
merge snap
settle vol
finish vol
save base 0 128
remove vol
remove base
remove cow
disk base 128
disk cow 64
create vol 0 128 snapshot-origin base
write vol 0 65536*11
create snap 0 128 snapshot base cow P 1
write vol 3 512*aa
write vol 8 512*aa
merge snap
step vol merge-group
start vol write 8 512*55
start vol write 3 512*44
step vol issue 5
start vol read 8 1
step vol issue 6
step vol merge-read
step vol merge-write
step vol merge-flush
step vol merge-commit
step vol merge-release
step vol issue 4
stop vol
create vol 0 128 snapshot-origin base
create snap 0 128 snapshot base cow P 1
status snap
read snap 0 128
merge snap
settle vol
finish vol
save base 0 128
remove vol
remove base
remove cow
disk base 128
disk cow 64
create vol 0 128 snapshot-origin base
write vol 0 65536*11
create snap 0 128 snapshot base cow P 1
write vol 3 512*aa
write vol 8 512*aa
merge snap
step vol merge-group
start vol write 8 512*55
start vol write 3 512*44
step vol issue 5
start vol read 8 1
step vol issue 6
step vol merge-read
step vol merge-write
step vol merge-flush
step vol merge-commit
step vol merge-release
step vol issue 4
step vol merge-group
stop vol
create vol 0 128 snapshot-origin base
create snap 0 128 snapshot base cow P 1
status snap
read snap 0 128
merge snap
settle vol
finish vol
save base 0 128
remove vol
remove base
remove cow
disk base 128
disk cow 64
create vol 0 128 snapshot-origin base
write vol 0 65536*11
create snap 0 128 snapshot base cow P 1
write vol 3 512*aa
write vol 8 512*aa
merge snap
step vol merge-group
start vol write 8 512*55
start vol write 3 512*44
step vol issue 5
start vol read 8 1
step vol issue 6
step vol merge-read
step vol merge-write
step vol merge-flush
step vol merge-commit
step vol merge-release
step vol issue 4
step vol merge-group
step vol merge-read
stop vol
create vol 0 128 snapshot-origin base
create snap 0 128 snapshot base cow P 1
status snap
read snap 0 128
merge snap
settle vol
finish vol
save base 0 128
remove vol
remove base
remove cow
disk base 128
disk cow 64
create vol 0 128 snapshot-origin base
write vol 0 65536*11
create snap 0 128 snapshot base cow P 1
write vol 3 512*aa
write vol 8 512*aa
merge snap
step vol merge-group
start vol write 8 512*55
start vol write 3 512*44
step vol issue 5
start vol read 8 1
step vol issue 6
step vol merge-read
step vol merge-write
step vol merge-flush
step vol merge-commit
step vol merge-release
step vol issue 4
step vol merge-group
step vol merge-read
step vol merge-write
stop vol
create vol 0 128 snapshot-origin base
create snap 0 128 snapshot base cow P 1
status snap
read snap 0 128
merge snap
settle vol
finish vol
save base 0 128
remove vol
remove base
remove cow
disk base 128
disk cow 64
create vol 0 128 snapshot-origin base
write vol 0 65536*11
create snap 0 128 snapshot base cow P 1
write vol 3 512*aa
write vol 8 512*aa
merge snap
step vol merge-group
start vol write 8 512*55
start vol write 3 512*44
step vol issue 5
start vol read 8 1
step vol issue 6
step vol merge-read
step vol merge-write
step vol merge-flush
step vol merge-commit
step vol merge-release
step vol issue 4
step vol merge-group
step vol merge-read
step vol merge-write
step vol merge-flush
stop vol
create vol 0 128 snapshot-origin base
create snap 0 128 snapshot base cow P 1
status snap
read snap 0 128
merge snap
settle vol
finish vol
save base 0 128
remove vol
remove base
remove cow
disk base 128
disk cow 64
create vol 0 128 snapshot-origin base
write vol 0 65536*11
create snap 0 128 snapshot base cow P 1
write vol 3 512*aa
write vol 8 512*aa
merge snap
step vol merge-group
start vol write 8 512*55
start vol write 3 512*44
step vol issue 5
start vol read 8 1
step vol issue 6
step vol merge-read
step vol merge-write
step vol merge-flush
step vol merge-commit
step vol merge-release
step vol issue 4
step vol merge-group
step vol merge-read
step vol merge-write
step vol merge-flush
step vol merge-commit
stop vol
create vol 0 128 snapshot-origin base
create snap 0 128 snapshot base cow P 1
status snap
read snap 0 128
merge snap
settle vol
finish vol
save base 0 128
remove vol
remove base
remove cow
disk base 128
disk cow 64
create vol 0 128 snapshot-origin base
write vol 0 65536*11
create snap 0 128 snapshot base cow P 1
write vol 3 512*aa
write vol 8 512*aa
merge snap
step vol merge-group
start vol write 8 512*55
start vol write 3 512*44
step vol issue 5
start vol read 8 1
step vol issue 6
step vol merge-read
step vol merge-write
step vol merge-flush
step vol merge-commit
step vol merge-release
step vol issue 4
step vol merge-group
step vol merge-read
step vol merge-write
step vol merge-flush
step vol merge-commit
step vol merge-release
stop vol
create vol 0 128 snapshot-origin base
create snap 0 128 snapshot base cow P 1
status snap
read snap 0 128
merge snap
settle vol
finish vol
save base 0 128
remove vol
remove base
remove cow
