# A merge that another snapshot needs a copy for is stopped after each event, and what was not flushed is lost: the other snapshot
# shows what it showed.
# That a disk keeps what was flushed is how a volatile cache is defined; that a volume is stopped by a command is this project's.
disk base 8
disk cow 8
disk cow2 8
create vol 0 8 snapshot-origin base
write vol 0 4096*11
create snap 0 8 snapshot base cow P 1
create s2 0 8 snapshot base cow2 P 1
write snap 3 512*77
merge snap
stop vol lose
create vol 0 8 snapshot-origin base
create snap 0 8 snapshot base cow P 1
create s2 0 8 snapshot base cow2 P 1
read snap 0 8
read s2 0 8
merge snap
settle vol
finish vol
read s2 0 8
save base 0 8
remove s2
remove vol
remove base
remove cow
remove cow2
disk base 8
disk cow 8
disk cow2 8
create vol 0 8 snapshot-origin base
write vol 0 4096*11
create snap 0 8 snapshot base cow P 1
create s2 0 8 snapshot base cow2 P 1
write snap 3 512*77
merge snap
step vol merge-group
stop vol lose
create vol 0 8 snapshot-origin base
create snap 0 8 snapshot base cow P 1
create s2 0 8 snapshot base cow2 P 1
read snap 0 8
read s2 0 8
merge snap
settle vol
finish vol
read s2 0 8
save base 0 8
remove s2
remove vol
remove base
remove cow
remove cow2
disk base 8
disk cow 8
disk cow2 8
create vol 0 8 snapshot-origin base
write vol 0 4096*11
create snap 0 8 snapshot base cow P 1
create s2 0 8 snapshot base cow2 P 1
write snap 3 512*77
merge snap
step vol merge-group
step vol copy-read 2
stop vol lose
create vol 0 8 snapshot-origin base
create snap 0 8 snapshot base cow P 1
create s2 0 8 snapshot base cow2 P 1
read snap 0 8
read s2 0 8
merge snap
settle vol
finish vol
read s2 0 8
save base 0 8
remove s2
remove vol
remove base
remove cow
remove cow2
disk base 8
disk cow 8
disk cow2 8
create vol 0 8 snapshot-origin base
write vol 0 4096*11
create snap 0 8 snapshot base cow P 1
create s2 0 8 snapshot base cow2 P 1
write snap 3 512*77
merge snap
step vol merge-group
step vol copy-read 2
step vol copy-write 2
stop vol lose
create vol 0 8 snapshot-origin base
create snap 0 8 snapshot base cow P 1
create s2 0 8 snapshot base cow2 P 1
read snap 0 8
read s2 0 8
merge snap
settle vol
finish vol
read s2 0 8
save base 0 8
remove s2
remove vol
remove base
remove cow
remove cow2
disk base 8
disk cow 8
disk cow2 8
create vol 0 8 snapshot-origin base
write vol 0 4096*11
create snap 0 8 snapshot base cow P 1
create s2 0 8 snapshot base cow2 P 1
write snap 3 512*77
merge snap
step vol merge-group
step vol copy-read 2
step vol copy-write 2
step vol flush-store s2
stop vol lose
create vol 0 8 snapshot-origin base
create snap 0 8 snapshot base cow P 1
create s2 0 8 snapshot base cow2 P 1
read snap 0 8
read s2 0 8
merge snap
settle vol
finish vol
read s2 0 8
save base 0 8
remove s2
remove vol
remove base
remove cow
remove cow2
disk base 8
disk cow 8
disk cow2 8
create vol 0 8 snapshot-origin base
write vol 0 4096*11
create snap 0 8 snapshot base cow P 1
create s2 0 8 snapshot base cow2 P 1
write snap 3 512*77
merge snap
step vol merge-group
step vol copy-read 2
step vol copy-write 2
step vol flush-store s2
step vol write-area s2
stop vol lose
create vol 0 8 snapshot-origin base
create snap 0 8 snapshot base cow P 1
create s2 0 8 snapshot base cow2 P 1
read snap 0 8
read s2 0 8
merge snap
settle vol
finish vol
read s2 0 8
save base 0 8
remove s2
remove vol
remove base
remove cow
remove cow2
disk base 8
disk cow 8
disk cow2 8
create vol 0 8 snapshot-origin base
write vol 0 4096*11
create snap 0 8 snapshot base cow P 1
create s2 0 8 snapshot base cow2 P 1
write snap 3 512*77
merge snap
step vol merge-group
step vol copy-read 2
step vol copy-write 2
step vol flush-store s2
step vol write-area s2
step vol flush-store s2
stop vol lose
create vol 0 8 snapshot-origin base
create snap 0 8 snapshot base cow P 1
create s2 0 8 snapshot base cow2 P 1
read snap 0 8
read s2 0 8
merge snap
settle vol
finish vol
read s2 0 8
save base 0 8
remove s2
remove vol
remove base
remove cow
remove cow2
disk base 8
disk cow 8
disk cow2 8
create vol 0 8 snapshot-origin base
write vol 0 4096*11
create snap 0 8 snapshot base cow P 1
create s2 0 8 snapshot base cow2 P 1
write snap 3 512*77
merge snap
step vol merge-group
step vol copy-read 2
step vol copy-write 2
step vol flush-store s2
step vol write-area s2
step vol flush-store s2
step vol publish 2
stop vol lose
create vol 0 8 snapshot-origin base
create snap 0 8 snapshot base cow P 1
create s2 0 8 snapshot base cow2 P 1
read snap 0 8
read s2 0 8
merge snap
settle vol
finish vol
read s2 0 8
save base 0 8
remove s2
remove vol
remove base
remove cow
remove cow2
disk base 8
disk cow 8
disk cow2 8
create vol 0 8 snapshot-origin base
write vol 0 4096*11
create snap 0 8 snapshot base cow P 1
create s2 0 8 snapshot base cow2 P 1
write snap 3 512*77
merge snap
step vol merge-group
step vol copy-read 2
step vol copy-write 2
step vol flush-store s2
step vol write-area s2
step vol flush-store s2
step vol publish 2
step vol merge-read
stop vol lose
create vol 0 8 snapshot-origin base
create snap 0 8 snapshot base cow P 1
create s2 0 8 snapshot base cow2 P 1
read snap 0 8
read s2 0 8
merge snap
settle vol
finish vol
read s2 0 8
save base 0 8
remove s2
remove vol
remove base
remove cow
remove cow2
disk base 8
disk cow 8
disk cow2 8
create vol 0 8 snapshot-origin base
write vol 0 4096*11
create snap 0 8 snapshot base cow P 1
create s2 0 8 snapshot base cow2 P 1
write snap 3 512*77
merge snap
step vol merge-group
step vol copy-read 2
step vol copy-write 2
step vol flush-store s2
step vol write-area s2
step vol flush-store s2
step vol publish 2
step vol merge-read
step vol merge-write
stop vol lose
create vol 0 8 snapshot-origin base
create snap 0 8 snapshot base cow P 1
create s2 0 8 snapshot base cow2 P 1
read snap 0 8
read s2 0 8
merge snap
settle vol
finish vol
read s2 0 8
save base 0 8
remove s2
remove vol
remove base
remove cow
remove cow2
disk base 8
disk cow 8
disk cow2 8
create vol 0 8 snapshot-origin base
write vol 0 4096*11
create snap 0 8 snapshot base cow P 1
create s2 0 8 snapshot base cow2 P 1
write snap 3 512*77
merge snap
step vol merge-group
step vol copy-read 2
step vol copy-write 2
step vol flush-store s2
step vol write-area s2
step vol flush-store s2
step vol publish 2
step vol merge-read
step vol merge-write
step vol merge-flush
stop vol lose
create vol 0 8 snapshot-origin base
create snap 0 8 snapshot base cow P 1
create s2 0 8 snapshot base cow2 P 1
read snap 0 8
read s2 0 8
merge snap
settle vol
finish vol
read s2 0 8
save base 0 8
remove s2
remove vol
remove base
remove cow
remove cow2
disk base 8
disk cow 8
disk cow2 8
create vol 0 8 snapshot-origin base
write vol 0 4096*11
create snap 0 8 snapshot base cow P 1
create s2 0 8 snapshot base cow2 P 1
write snap 3 512*77
merge snap
step vol merge-group
step vol copy-read 2
step vol copy-write 2
step vol flush-store s2
step vol write-area s2
step vol flush-store s2
step vol publish 2
step vol merge-read
step vol merge-write
step vol merge-flush
step vol merge-commit
stop vol lose
create vol 0 8 snapshot-origin base
create snap 0 8 snapshot base cow P 1
create s2 0 8 snapshot base cow2 P 1
read snap 0 8
read s2 0 8
merge snap
settle vol
finish vol
read s2 0 8
save base 0 8
remove s2
remove vol
remove base
remove cow
remove cow2
disk base 8
disk cow 8
disk cow2 8
create vol 0 8 snapshot-origin base
write vol 0 4096*11
create snap 0 8 snapshot base cow P 1
create s2 0 8 snapshot base cow2 P 1
write snap 3 512*77
merge snap
step vol merge-group
step vol copy-read 2
step vol copy-write 2
step vol flush-store s2
step vol write-area s2
step vol flush-store s2
step vol publish 2
step vol merge-read
step vol merge-write
step vol merge-flush
step vol merge-commit
step vol merge-release
stop vol lose
create vol 0 8 snapshot-origin base
create snap 0 8 snapshot base cow P 1
create s2 0 8 snapshot base cow2 P 1
read snap 0 8
read s2 0 8
merge snap
settle vol
finish vol
read s2 0 8
save base 0 8
remove s2
remove vol
remove base
remove cow
remove cow2
