# The origin is written beside a merge, which is stopped after each event, and what was not flushed is lost: the merge that is done
# again leaves what the origin showed, but for these two writes, each of which may be lost.
# That a disk keeps what was flushed is how a volatile cache is defined; that a volume is stopped by a command is this project's.
disk base 16
disk cow 16
create vol 0 16 snapshot-origin base
write vol 0 8192*11
create snap 0 16 snapshot base cow P 1
write vol 3 512*aa
write vol 8 512*aa
merge snap
step vol merge-group
start vol write 8 512*55
write vol 3 512*44
stop vol lose
create vol 0 16 snapshot-origin base
create snap 0 16 snapshot base cow P 1
read snap 0 16
merge snap
settle vol
finish vol
save base 0 16
remove vol
remove base
remove cow
disk base 16
disk cow 16
create vol 0 16 snapshot-origin base
write vol 0 8192*11
create snap 0 16 snapshot base cow P 1
write vol 3 512*aa
write vol 8 512*aa
merge snap
step vol merge-group
start vol write 8 512*55
write vol 3 512*44
step vol merge-read
stop vol lose
create vol 0 16 snapshot-origin base
create snap 0 16 snapshot base cow P 1
read snap 0 16
merge snap
settle vol
finish vol
save base 0 16
remove vol
remove base
remove cow
disk base 16
disk cow 16
create vol 0 16 snapshot-origin base
write vol 0 8192*11
create snap 0 16 snapshot base cow P 1
write vol 3 512*aa
write vol 8 512*aa
merge snap
step vol merge-group
start vol write 8 512*55
write vol 3 512*44
step vol merge-read
step vol merge-write
stop vol lose
create vol 0 16 snapshot-origin base
create snap 0 16 snapshot base cow P 1
read snap 0 16
merge snap
settle vol
finish vol
save base 0 16
remove vol
remove base
remove cow
disk base 16
disk cow 16
create vol 0 16 snapshot-origin base
write vol 0 8192*11
create snap 0 16 snapshot base cow P 1
write vol 3 512*aa
write vol 8 512*aa
merge snap
step vol merge-group
start vol write 8 512*55
write vol 3 512*44
step vol merge-read
step vol merge-write
step vol merge-flush
stop vol lose
create vol 0 16 snapshot-origin base
create snap 0 16 snapshot base cow P 1
read snap 0 16
merge snap
settle vol
finish vol
save base 0 16
remove vol
remove base
remove cow
disk base 16
disk cow 16
create vol 0 16 snapshot-origin base
write vol 0 8192*11
create snap 0 16 snapshot base cow P 1
write vol 3 512*aa
write vol 8 512*aa
merge snap
step vol merge-group
start vol write 8 512*55
write vol 3 512*44
step vol merge-read
step vol merge-write
step vol merge-flush
step vol merge-commit
stop vol lose
create vol 0 16 snapshot-origin base
create snap 0 16 snapshot base cow P 1
read snap 0 16
merge snap
settle vol
finish vol
save base 0 16
remove vol
remove base
remove cow
disk base 16
disk cow 16
create vol 0 16 snapshot-origin base
write vol 0 8192*11
create snap 0 16 snapshot base cow P 1
write vol 3 512*aa
write vol 8 512*aa
merge snap
step vol merge-group
start vol write 8 512*55
write vol 3 512*44
step vol merge-read
step vol merge-write
step vol merge-flush
step vol merge-commit
step vol merge-release
stop vol lose
create vol 0 16 snapshot-origin base
create snap 0 16 snapshot base cow P 1
read snap 0 16
merge snap
settle vol
finish vol
save base 0 16
remove vol
remove base
remove cow
disk base 16
disk cow 16
create vol 0 16 snapshot-origin base
write vol 0 8192*11
create snap 0 16 snapshot base cow P 1
write vol 3 512*aa
write vol 8 512*aa
merge snap
step vol merge-group
start vol write 8 512*55
write vol 3 512*44
step vol merge-read
step vol merge-write
step vol merge-flush
step vol merge-commit
step vol merge-release
step vol issue 4
stop vol lose
create vol 0 16 snapshot-origin base
create snap 0 16 snapshot base cow P 1
read snap 0 16
merge snap
settle vol
finish vol
save base 0 16
remove vol
remove base
remove cow
disk base 16
disk cow 16
create vol 0 16 snapshot-origin base
write vol 0 8192*11
create snap 0 16 snapshot base cow P 1
write vol 3 512*aa
write vol 8 512*aa
merge snap
step vol merge-group
start vol write 8 512*55
write vol 3 512*44
step vol merge-read
step vol merge-write
step vol merge-flush
step vol merge-commit
step vol merge-release
step vol issue 4
step vol merge-group
stop vol lose
create vol 0 16 snapshot-origin base
create snap 0 16 snapshot base cow P 1
read snap 0 16
merge snap
settle vol
finish vol
save base 0 16
remove vol
remove base
remove cow
disk base 16
disk cow 16
create vol 0 16 snapshot-origin base
write vol 0 8192*11
create snap 0 16 snapshot base cow P 1
write vol 3 512*aa
write vol 8 512*aa
merge snap
step vol merge-group
start vol write 8 512*55
write vol 3 512*44
step vol merge-read
step vol merge-write
step vol merge-flush
step vol merge-commit
step vol merge-release
step vol issue 4
step vol merge-group
step vol merge-read
stop vol lose
create vol 0 16 snapshot-origin base
create snap 0 16 snapshot base cow P 1
read snap 0 16
merge snap
settle vol
finish vol
save base 0 16
remove vol
remove base
remove cow
disk base 16
disk cow 16
create vol 0 16 snapshot-origin base
write vol 0 8192*11
create snap 0 16 snapshot base cow P 1
write vol 3 512*aa
write vol 8 512*aa
merge snap
step vol merge-group
start vol write 8 512*55
write vol 3 512*44
step vol merge-read
step vol merge-write
step vol merge-flush
step vol merge-commit
step vol merge-release
step vol issue 4
step vol merge-group
step vol merge-read
step vol merge-write
stop vol lose
create vol 0 16 snapshot-origin base
create snap 0 16 snapshot base cow P 1
read snap 0 16
merge snap
settle vol
finish vol
save base 0 16
remove vol
remove base
remove cow
disk base 16
disk cow 16
create vol 0 16 snapshot-origin base
write vol 0 8192*11
create snap 0 16 snapshot base cow P 1
write vol 3 512*aa
write vol 8 512*aa
merge snap
step vol merge-group
start vol write 8 512*55
write vol 3 512*44
step vol merge-read
step vol merge-write
step vol merge-flush
step vol merge-commit
step vol merge-release
step vol issue 4
step vol merge-group
step vol merge-read
step vol merge-write
step vol merge-flush
stop vol lose
create vol 0 16 snapshot-origin base
create snap 0 16 snapshot base cow P 1
read snap 0 16
merge snap
settle vol
finish vol
save base 0 16
remove vol
remove base
remove cow
disk base 16
disk cow 16
create vol 0 16 snapshot-origin base
write vol 0 8192*11
create snap 0 16 snapshot base cow P 1
write vol 3 512*aa
write vol 8 512*aa
merge snap
step vol merge-group
start vol write 8 512*55
write vol 3 512*44
step vol merge-read
step vol merge-write
step vol merge-flush
step vol merge-commit
step vol merge-release
step vol issue 4
step vol merge-group
step vol merge-read
step vol merge-write
step vol merge-flush
step vol merge-commit
stop vol lose
create vol 0 16 snapshot-origin base
create snap 0 16 snapshot base cow P 1
read snap 0 16
merge snap
settle vol
finish vol
save base 0 16
remove vol
remove base
remove cow
disk base 16
disk cow 16
create vol 0 16 snapshot-origin base
write vol 0 8192*11
create snap 0 16 snapshot base cow P 1
write vol 3 512*aa
write vol 8 512*aa
merge snap
step vol merge-group
start vol write 8 512*55
write vol 3 512*44
step vol merge-read
step vol merge-write
step vol merge-flush
step vol merge-commit
step vol merge-release
step vol issue 4
step vol merge-group
step vol merge-read
step vol merge-write
step vol merge-flush
step vol merge-commit
step vol merge-release
stop vol lose
create vol 0 16 snapshot-origin base
create snap 0 16 snapshot base cow P 1
read snap 0 16
merge snap
settle vol
finish vol
save base 0 16
remove vol
remove base
remove cow
