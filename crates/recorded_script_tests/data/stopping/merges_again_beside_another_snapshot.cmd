# Stopped after each event of a write to a snapshot, of a write to its origin, and of a merge that overwrites a chunk of another
# snapshot: both show after they are loaded again what they showed, and the merge is done again.
# By the admin-guide page on snapshots and the persistent store's format; that a volume is stopped by a command is this project's.
disk base 128
disk cow 64
create vol 0 128 snapshot-origin base
write vol 0 65536*11
create snap 0 128 snapshot base cow P 1
disk cow2 64
create s2 0 128 snapshot base cow2 P 1
stop vol
create vol 0 128 snapshot-origin base
create snap 0 128 snapshot base cow P 1
create s2 0 128 snapshot base cow2 P 1
read snap 0 128
read s2 0 128
read vol 0 128
remove snap
remove s2
remove vol
remove base
remove cow
remove cow2
disk base 128
disk cow 64
create vol 0 128 snapshot-origin base
write vol 0 65536*11
create snap 0 128 snapshot base cow P 1
disk cow2 64
create s2 0 128 snapshot base cow2 P 1
start snap write 9 512*77
stop vol
create vol 0 128 snapshot-origin base
create snap 0 128 snapshot base cow P 1
create s2 0 128 snapshot base cow2 P 1
read snap 0 128
read s2 0 128
read vol 0 128
remove snap
remove s2
remove vol
remove base
remove cow
remove cow2
disk base 128
disk cow 64
create vol 0 128 snapshot-origin base
write vol 0 65536*11
create snap 0 128 snapshot base cow P 1
disk cow2 64
create s2 0 128 snapshot base cow2 P 1
start snap write 9 512*77
step vol copy-read 1
stop vol
create vol 0 128 snapshot-origin base
create snap 0 128 snapshot base cow P 1
create s2 0 128 snapshot base cow2 P 1
read snap 0 128
read s2 0 128
read vol 0 128
remove snap
remove s2
remove vol
remove base
remove cow
remove cow2
disk base 128
disk cow 64
create vol 0 128 snapshot-origin base
write vol 0 65536*11
create snap 0 128 snapshot base cow P 1
disk cow2 64
create s2 0 128 snapshot base cow2 P 1
start snap write 9 512*77
step vol copy-read 1
step vol copy-write 1
stop vol
create vol 0 128 snapshot-origin base
create snap 0 128 snapshot base cow P 1
create s2 0 128 snapshot base cow2 P 1
read snap 0 128
read s2 0 128
read vol 0 128
remove snap
remove s2
remove vol
remove base
remove cow
remove cow2
disk base 128
disk cow 64
create vol 0 128 snapshot-origin base
write vol 0 65536*11
create snap 0 128 snapshot base cow P 1
disk cow2 64
create s2 0 128 snapshot base cow2 P 1
start snap write 9 512*77
step vol copy-read 1
step vol copy-write 1
step vol flush-store snap
stop vol
create vol 0 128 snapshot-origin base
create snap 0 128 snapshot base cow P 1
create s2 0 128 snapshot base cow2 P 1
read snap 0 128
read s2 0 128
read vol 0 128
remove snap
remove s2
remove vol
remove base
remove cow
remove cow2
disk base 128
disk cow 64
create vol 0 128 snapshot-origin base
write vol 0 65536*11
create snap 0 128 snapshot base cow P 1
disk cow2 64
create s2 0 128 snapshot base cow2 P 1
start snap write 9 512*77
step vol copy-read 1
step vol copy-write 1
step vol flush-store snap
step vol write-area snap
stop vol
create vol 0 128 snapshot-origin base
create snap 0 128 snapshot base cow P 1
create s2 0 128 snapshot base cow2 P 1
read snap 0 128
read s2 0 128
read vol 0 128
remove snap
remove s2
remove vol
remove base
remove cow
remove cow2
disk base 128
disk cow 64
create vol 0 128 snapshot-origin base
write vol 0 65536*11
create snap 0 128 snapshot base cow P 1
disk cow2 64
create s2 0 128 snapshot base cow2 P 1
start snap write 9 512*77
step vol copy-read 1
step vol copy-write 1
step vol flush-store snap
step vol write-area snap
step vol flush-store snap
stop vol
create vol 0 128 snapshot-origin base
create snap 0 128 snapshot base cow P 1
create s2 0 128 snapshot base cow2 P 1
read snap 0 128
read s2 0 128
read vol 0 128
remove snap
remove s2
remove vol
remove base
remove cow
remove cow2
disk base 128
disk cow 64
create vol 0 128 snapshot-origin base
write vol 0 65536*11
create snap 0 128 snapshot base cow P 1
disk cow2 64
create s2 0 128 snapshot base cow2 P 1
start snap write 9 512*77
step vol copy-read 1
step vol copy-write 1
step vol flush-store snap
step vol write-area snap
step vol flush-store snap
step vol publish 1
stop vol
create vol 0 128 snapshot-origin base
create snap 0 128 snapshot base cow P 1
create s2 0 128 snapshot base cow2 P 1
read snap 0 128
read s2 0 128
read vol 0 128
remove snap
remove s2
remove vol
remove base
remove cow
remove cow2
disk base 128
disk cow 64
create vol 0 128 snapshot-origin base
write vol 0 65536*11
create snap 0 128 snapshot base cow P 1
disk cow2 64
create s2 0 128 snapshot base cow2 P 1
start snap write 9 512*77
step vol copy-read 1
step vol copy-write 1
step vol flush-store snap
step vol write-area snap
step vol flush-store snap
step vol publish 1
step vol issue 2
stop vol
create vol 0 128 snapshot-origin base
create snap 0 128 snapshot base cow P 1
create s2 0 128 snapshot base cow2 P 1
read snap 0 128
read s2 0 128
read vol 0 128
remove snap
remove s2
remove vol
remove base
remove cow
remove cow2
disk base 128
disk cow 64
create vol 0 128 snapshot-origin base
write vol 0 65536*11
create snap 0 128 snapshot base cow P 1
disk cow2 64
create s2 0 128 snapshot base cow2 P 1
start snap write 9 512*77
step vol copy-read 1
step vol copy-write 1
step vol flush-store snap
step vol write-area snap
step vol flush-store snap
step vol publish 1
step vol issue 2
start vol write 5 512*aa
stop vol
create vol 0 128 snapshot-origin base
create snap 0 128 snapshot base cow P 1
create s2 0 128 snapshot base cow2 P 1
read snap 0 128
read s2 0 128
read vol 0 128
remove snap
remove s2
remove vol
remove base
remove cow
remove cow2
disk base 128
disk cow 64
create vol 0 128 snapshot-origin base
write vol 0 65536*11
create snap 0 128 snapshot base cow P 1
disk cow2 64
create s2 0 128 snapshot base cow2 P 1
start snap write 9 512*77
step vol copy-read 1
step vol copy-write 1
step vol flush-store snap
step vol write-area snap
step vol flush-store snap
step vol publish 1
step vol issue 2
start vol write 5 512*aa
step vol copy-read 2
stop vol
create vol 0 128 snapshot-origin base
create snap 0 128 snapshot base cow P 1
create s2 0 128 snapshot base cow2 P 1
read snap 0 128
read s2 0 128
read vol 0 128
remove snap
remove s2
remove vol
remove base
remove cow
remove cow2
disk base 128
disk cow 64
create vol 0 128 snapshot-origin base
write vol 0 65536*11
create snap 0 128 snapshot base cow P 1
disk cow2 64
create s2 0 128 snapshot base cow2 P 1
start snap write 9 512*77
step vol copy-read 1
step vol copy-write 1
step vol flush-store snap
step vol write-area snap
step vol flush-store snap
step vol publish 1
step vol issue 2
start vol write 5 512*aa
step vol copy-read 2
step vol copy-write 2
stop vol
create vol 0 128 snapshot-origin base
create snap 0 128 snapshot base cow P 1
create s2 0 128 snapshot base cow2 P 1
read snap 0 128
read s2 0 128
read vol 0 128
remove snap
remove s2
remove vol
remove base
remove cow
remove cow2
disk base 128
disk cow 64
create vol 0 128 snapshot-origin base
write vol 0 65536*11
create snap 0 128 snapshot base cow P 1
disk cow2 64
create s2 0 128 snapshot base cow2 P 1
start snap write 9 512*77
step vol copy-read 1
step vol copy-write 1
step vol flush-store snap
step vol write-area snap
step vol flush-store snap
step vol publish 1
step vol issue 2
start vol write 5 512*aa
step vol copy-read 2
step vol copy-write 2
step vol flush-store snap
stop vol
create vol 0 128 snapshot-origin base
create snap 0 128 snapshot base cow P 1
create s2 0 128 snapshot base cow2 P 1
read snap 0 128
read s2 0 128
read vol 0 128
remove snap
remove s2
remove vol
remove base
remove cow
remove cow2
disk base 128
disk cow 64
create vol 0 128 snapshot-origin base
write vol 0 65536*11
create snap 0 128 snapshot base cow P 1
disk cow2 64
create s2 0 128 snapshot base cow2 P 1
start snap write 9 512*77
step vol copy-read 1
step vol copy-write 1
step vol flush-store snap
step vol write-area snap
step vol flush-store snap
step vol publish 1
step vol issue 2
start vol write 5 512*aa
step vol copy-read 2
step vol copy-write 2
step vol flush-store snap
step vol write-area snap
stop vol
create vol 0 128 snapshot-origin base
create snap 0 128 snapshot base cow P 1
create s2 0 128 snapshot base cow2 P 1
read snap 0 128
read s2 0 128
read vol 0 128
remove snap
remove s2
remove vol
remove base
remove cow
remove cow2
disk base 128
disk cow 64
create vol 0 128 snapshot-origin base
write vol 0 65536*11
create snap 0 128 snapshot base cow P 1
disk cow2 64
create s2 0 128 snapshot base cow2 P 1
start snap write 9 512*77
step vol copy-read 1
step vol copy-write 1
step vol flush-store snap
step vol write-area snap
step vol flush-store snap
step vol publish 1
step vol issue 2
start vol write 5 512*aa
step vol copy-read 2
step vol copy-write 2
step vol flush-store snap
step vol write-area snap
step vol flush-store snap
stop vol
create vol 0 128 snapshot-origin base
create snap 0 128 snapshot base cow P 1
create s2 0 128 snapshot base cow2 P 1
read snap 0 128
read s2 0 128
read vol 0 128
remove snap
remove s2
remove vol
remove base
remove cow
remove cow2
disk base 128
disk cow 64
create vol 0 128 snapshot-origin base
write vol 0 65536*11
create snap 0 128 snapshot base cow P 1
disk cow2 64
create s2 0 128 snapshot base cow2 P 1
start snap write 9 512*77
step vol copy-read 1
step vol copy-write 1
step vol flush-store snap
step vol write-area snap
step vol flush-store snap
step vol publish 1
step vol issue 2
start vol write 5 512*aa
step vol copy-read 2
step vol copy-write 2
step vol flush-store snap
step vol write-area snap
step vol flush-store snap
step vol publish 2
stop vol
create vol 0 128 snapshot-origin base
create snap 0 128 snapshot base cow P 1
create s2 0 128 snapshot base cow2 P 1
read snap 0 128
read s2 0 128
read vol 0 128
remove snap
remove s2
remove vol
remove base
remove cow
remove cow2
disk base 128
disk cow 64
create vol 0 128 snapshot-origin base
write vol 0 65536*11
create snap 0 128 snapshot base cow P 1
disk cow2 64
create s2 0 128 snapshot base cow2 P 1
start snap write 9 512*77
step vol copy-read 1
step vol copy-write 1
step vol flush-store snap
step vol write-area snap
step vol flush-store snap
step vol publish 1
step vol issue 2
start vol write 5 512*aa
step vol copy-read 2
step vol copy-write 2
step vol flush-store snap
step vol write-area snap
step vol flush-store snap
step vol publish 2
step vol copy-read 3
stop vol
create vol 0 128 snapshot-origin base
create snap 0 128 snapshot base cow P 1
create s2 0 128 snapshot base cow2 P 1
read snap 0 128
read s2 0 128
read vol 0 128
remove snap
remove s2
remove vol
remove base
remove cow
remove cow2
disk base 128
disk cow 64
create vol 0 128 snapshot-origin base
write vol 0 65536*11
create snap 0 128 snapshot base cow P 1
disk cow2 64
create s2 0 128 snapshot base cow2 P 1
start snap write 9 512*77
step vol copy-read 1
step vol copy-write 1
step vol flush-store snap
step vol write-area snap
step vol flush-store snap
step vol publish 1
step vol issue 2
start vol write 5 512*aa
step vol copy-read 2
step vol copy-write 2
step vol flush-store snap
step vol write-area snap
step vol flush-store snap
step vol publish 2
step vol copy-read 3
step vol copy-write 3
stop vol
create vol 0 128 snapshot-origin base
create snap 0 128 snapshot base cow P 1
create s2 0 128 snapshot base cow2 P 1
read snap 0 128
read s2 0 128
read vol 0 128
remove snap
remove s2
remove vol
remove base
remove cow
remove cow2
disk base 128
disk cow 64
create vol 0 128 snapshot-origin base
write vol 0 65536*11
create snap 0 128 snapshot base cow P 1
disk cow2 64
create s2 0 128 snapshot base cow2 P 1
start snap write 9 512*77
step vol copy-read 1
step vol copy-write 1
step vol flush-store snap
step vol write-area snap
step vol flush-store snap
step vol publish 1
step vol issue 2
start vol write 5 512*aa
step vol copy-read 2
step vol copy-write 2
step vol flush-store snap
step vol write-area snap
step vol flush-store snap
step vol publish 2
step vol copy-read 3
step vol copy-write 3
step vol flush-store s2
stop vol
create vol 0 128 snapshot-origin base
create snap 0 128 snapshot base cow P 1
create s2 0 128 snapshot base cow2 P 1
read snap 0 128
read s2 0 128
read vol 0 128
remove snap
remove s2
remove vol
remove base
remove cow
remove cow2
disk base 128
disk cow 64
create vol 0 128 snapshot-origin base
write vol 0 65536*11
create snap 0 128 snapshot base cow P 1
disk cow2 64
create s2 0 128 snapshot base cow2 P 1
start snap write 9 512*77
step vol copy-read 1
step vol copy-write 1
step vol flush-store snap
step vol write-area snap
step vol flush-store snap
step vol publish 1
step vol issue 2
start vol write 5 512*aa
step vol copy-read 2
step vol copy-write 2
step vol flush-store snap
step vol write-area snap
step vol flush-store snap
step vol publish 2
step vol copy-read 3
step vol copy-write 3
step vol flush-store s2
step vol write-area s2
stop vol
create vol 0 128 snapshot-origin base
create snap 0 128 snapshot base cow P 1
create s2 0 128 snapshot base cow2 P 1
read snap 0 128
read s2 0 128
read vol 0 128
remove snap
remove s2
remove vol
remove base
remove cow
remove cow2
disk base 128
disk cow 64
create vol 0 128 snapshot-origin base
write vol 0 65536*11
create snap 0 128 snapshot base cow P 1
disk cow2 64
create s2 0 128 snapshot base cow2 P 1
start snap write 9 512*77
step vol copy-read 1
step vol copy-write 1
step vol flush-store snap
step vol write-area snap
step vol flush-store snap
step vol publish 1
step vol issue 2
start vol write 5 512*aa
step vol copy-read 2
step vol copy-write 2
step vol flush-store snap
step vol write-area snap
step vol flush-store snap
step vol publish 2
step vol copy-read 3
step vol copy-write 3
step vol flush-store s2
step vol write-area s2
step vol flush-store s2
stop vol
create vol 0 128 snapshot-origin base
create snap 0 128 snapshot base cow P 1
create s2 0 128 snapshot base cow2 P 1
read snap 0 128
read s2 0 128
read vol 0 128
remove snap
remove s2
remove vol
remove base
remove cow
remove cow2
disk base 128
disk cow 64
create vol 0 128 snapshot-origin base
write vol 0 65536*11
create snap 0 128 snapshot base cow P 1
disk cow2 64
create s2 0 128 snapshot base cow2 P 1
start snap write 9 512*77
step vol copy-read 1
step vol copy-write 1
step vol flush-store snap
step vol write-area snap
step vol flush-store snap
step vol publish 1
step vol issue 2
start vol write 5 512*aa
step vol copy-read 2
step vol copy-write 2
step vol flush-store snap
step vol write-area snap
step vol flush-store snap
step vol publish 2
step vol copy-read 3
step vol copy-write 3
step vol flush-store s2
step vol write-area s2
step vol flush-store s2
step vol publish 3
stop vol
create vol 0 128 snapshot-origin base
create snap 0 128 snapshot base cow P 1
create s2 0 128 snapshot base cow2 P 1
read snap 0 128
read s2 0 128
read vol 0 128
remove snap
remove s2
remove vol
remove base
remove cow
remove cow2
disk base 128
disk cow 64
create vol 0 128 snapshot-origin base
write vol 0 65536*11
create snap 0 128 snapshot base cow P 1
disk cow2 64
create s2 0 128 snapshot base cow2 P 1
start snap write 9 512*77
step vol copy-read 1
step vol copy-write 1
step vol flush-store snap
step vol write-area snap
step vol flush-store snap
step vol publish 1
step vol issue 2
start vol write 5 512*aa
step vol copy-read 2
step vol copy-write 2
step vol flush-store snap
step vol write-area snap
step vol flush-store snap
step vol publish 2
step vol copy-read 3
step vol copy-write 3
step vol flush-store s2
step vol write-area s2
step vol flush-store s2
step vol publish 3
step vol issue 3
stop vol
create vol 0 128 snapshot-origin base
create snap 0 128 snapshot base cow P 1
create s2 0 128 snapshot base cow2 P 1
read snap 0 128
read s2 0 128
read vol 0 128
remove snap
remove s2
remove vol
remove base
remove cow
remove cow2
disk base 128
disk cow 64
create vol 0 128 snapshot-origin base
write vol 0 65536*11
create snap 0 128 snapshot base cow P 1
disk cow2 64
create s2 0 128 snapshot base cow2 P 1
start snap write 9 512*77
step vol copy-read 1
step vol copy-write 1
step vol flush-store snap
step vol write-area snap
step vol flush-store snap
step vol publish 1
step vol issue 2
start vol write 5 512*aa
step vol copy-read 2
step vol copy-write 2
step vol flush-store snap
step vol write-area snap
step vol flush-store snap
step vol publish 2
step vol copy-read 3
step vol copy-write 3
step vol flush-store s2
step vol write-area s2
step vol flush-store s2
step vol publish 3
step vol issue 3
merge snap
stop vol
create vol 0 128 snapshot-origin base
create snap 0 128 snapshot base cow P 1
create s2 0 128 snapshot base cow2 P 1
read snap 0 128
read s2 0 128
merge snap
settle vol
finish vol
save base 0 128
read s2 0 128
remove s2
remove vol
remove base
remove cow
remove cow2
disk base 128
disk cow 64
create vol 0 128 snapshot-origin base
write vol 0 65536*11
create snap 0 128 snapshot base cow P 1
disk cow2 64
create s2 0 128 snapshot base cow2 P 1
start snap write 9 512*77
step vol copy-read 1
step vol copy-write 1
step vol flush-store snap
step vol write-area snap
step vol flush-store snap
step vol publish 1
step vol issue 2
start vol write 5 512*aa
step vol copy-read 2
step vol copy-write 2
step vol flush-store snap
step vol write-area snap
step vol flush-store snap
step vol publish 2
step vol copy-read 3
step vol copy-write 3
step vol flush-store s2
step vol write-area s2
step vol flush-store s2
step vol publish 3
step vol issue 3
merge snap
step vol merge-group
stop vol
create vol 0 128 snapshot-origin base
create snap 0 128 snapshot base cow P 1
create s2 0 128 snapshot base cow2 P 1
read snap 0 128
read s2 0 128
merge snap
settle vol
finish vol
save base 0 128
read s2 0 128
remove s2
remove vol
remove base
remove cow
remove cow2
disk base 128
disk cow 64
create vol 0 128 snapshot-origin base
write vol 0 65536*11
create snap 0 128 snapshot base cow P 1
disk cow2 64
create s2 0 128 snapshot base cow2 P 1
start snap write 9 512*77
step vol copy-read 1
step vol copy-write 1
step vol flush-store snap
step vol write-area snap
step vol flush-store snap
step vol publish 1
step vol issue 2
start vol write 5 512*aa
step vol copy-read 2
step vol copy-write 2
step vol flush-store snap
step vol write-area snap
step vol flush-store snap
step vol publish 2
step vol copy-read 3
step vol copy-write 3
step vol flush-store s2
step vol write-area s2
step vol flush-store s2
step vol publish 3
step vol issue 3
merge snap
step vol merge-group
step vol merge-read
stop vol
create vol 0 128 snapshot-origin base
create snap 0 128 snapshot base cow P 1
create s2 0 128 snapshot base cow2 P 1
read snap 0 128
read s2 0 128
merge snap
settle vol
finish vol
save base 0 128
read s2 0 128
remove s2
remove vol
remove base
remove cow
remove cow2
disk base 128
disk cow 64
create vol 0 128 snapshot-origin base
write vol 0 65536*11
create snap 0 128 snapshot base cow P 1
disk cow2 64
create s2 0 128 snapshot base cow2 P 1
start snap write 9 512*77
step vol copy-read 1
step vol copy-write 1
step vol flush-store snap
step vol write-area snap
step vol flush-store snap
step vol publish 1
step vol issue 2
start vol write 5 512*aa
step vol copy-read 2
step vol copy-write 2
step vol flush-store snap
step vol write-area snap
step vol flush-store snap
step vol publish 2
step vol copy-read 3
step vol copy-write 3
step vol flush-store s2
step vol write-area s2
step vol flush-store s2
step vol publish 3
step vol issue 3
merge snap
step vol merge-group
step vol merge-read
step vol merge-write
stop vol
create vol 0 128 snapshot-origin base
create snap 0 128 snapshot base cow P 1
create s2 0 128 snapshot base cow2 P 1
read snap 0 128
read s2 0 128
merge snap
settle vol
finish vol
save base 0 128
read s2 0 128
remove s2
remove vol
remove base
remove cow
remove cow2
disk base 128
disk cow 64
create vol 0 128 snapshot-origin base
write vol 0 65536*11
create snap 0 128 snapshot base cow P 1
disk cow2 64
create s2 0 128 snapshot base cow2 P 1
start snap write 9 512*77
step vol copy-read 1
step vol copy-write 1
step vol flush-store snap
step vol write-area snap
step vol flush-store snap
step vol publish 1
step vol issue 2
start vol write 5 512*aa
step vol copy-read 2
step vol copy-write 2
step vol flush-store snap
step vol write-area snap
step vol flush-store snap
step vol publish 2
step vol copy-read 3
step vol copy-write 3
step vol flush-store s2
step vol write-area s2
step vol flush-store s2
step vol publish 3
step vol issue 3
merge snap
step vol merge-group
step vol merge-read
step vol merge-write
step vol merge-flush
stop vol
create vol 0 128 snapshot-origin base
create snap 0 128 snapshot base cow P 1
create s2 0 128 snapshot base cow2 P 1
read snap 0 128
read s2 0 128
merge snap
settle vol
finish vol
save base 0 128
read s2 0 128
remove s2
remove vol
remove base
remove cow
remove cow2
disk base 128
disk cow 64
create vol 0 128 snapshot-origin base
write vol 0 65536*11
create snap 0 128 snapshot base cow P 1
disk cow2 64
create s2 0 128 snapshot base cow2 P 1
start snap write 9 512*77
step vol copy-read 1
step vol copy-write 1
step vol flush-store snap
step vol write-area snap
step vol flush-store snap
step vol publish 1
step vol issue 2
start vol write 5 512*aa
step vol copy-read 2
step vol copy-write 2
step vol flush-store snap
step vol write-area snap
step vol flush-store snap
step vol publish 2
step vol copy-read 3
step vol copy-write 3
step vol flush-store s2
step vol write-area s2
step vol flush-store s2
step vol publish 3
step vol issue 3
merge snap
step vol merge-group
step vol merge-read
step vol merge-write
step vol merge-flush
step vol merge-commit
stop vol
create vol 0 128 snapshot-origin base
create snap 0 128 snapshot base cow P 1
create s2 0 128 snapshot base cow2 P 1
read snap 0 128
read s2 0 128
merge snap
settle vol
finish vol
save base 0 128
read s2 0 128
remove s2
remove vol
remove base
remove cow
remove cow2
disk base 128
disk cow 64
create vol 0 128 snapshot-origin base
write vol 0 65536*11
create snap 0 128 snapshot base cow P 1
disk cow2 64
create s2 0 128 snapshot base cow2 P 1
start snap write 9 512*77
step vol copy-read 1
step vol copy-write 1
step vol flush-store snap
step vol write-area snap
step vol flush-store snap
step vol publish 1
step vol issue 2
start vol write 5 512*aa
step vol copy-read 2
step vol copy-write 2
step vol flush-store snap
step vol write-area snap
step vol flush-store snap
step vol publish 2
step vol copy-read 3
step vol copy-write 3
step vol flush-store s2
step vol write-area s2
step vol flush-store s2
step vol publish 3
step vol issue 3
merge snap
step vol merge-group
step vol merge-read
step vol merge-write
step vol merge-flush
step vol merge-commit
step vol merge-release
stop vol
create vol 0 128 snapshot-origin base
create snap 0 128 snapshot base cow P 1
create s2 0 128 snapshot base cow2 P 1
read snap 0 128
read s2 0 128
merge snap
settle vol
finish vol
save base 0 128
read s2 0 128
remove s2
remove vol
remove base
remove cow
remove cow2
disk base 128
disk cow 64
create vol 0 128 snapshot-origin base
write vol 0 65536*11
create snap 0 128 snapshot base cow P 1
disk cow2 64
create s2 0 128 snapshot base cow2 P 1
start snap write 9 512*77
step vol copy-read 1
step vol copy-write 1
step vol flush-store snap
step vol write-area snap
step vol flush-store snap
step vol publish 1
step vol issue 2
start vol write 5 512*aa
step vol copy-read 2
step vol copy-write 2
step vol flush-store snap
step vol write-area snap
step vol flush-store snap
step vol publish 2
step vol copy-read 3
step vol copy-write 3
step vol flush-store s2
step vol write-area s2
step vol flush-store s2
step vol publish 3
step vol issue 3
merge snap
step vol merge-group
step vol merge-read
step vol merge-write
step vol merge-flush
step vol merge-commit
step vol merge-release
step vol merge-group
stop vol
create vol 0 128 snapshot-origin base
create snap 0 128 snapshot base cow P 1
create s2 0 128 snapshot base cow2 P 1
read snap 0 128
read s2 0 128
merge snap
settle vol
finish vol
save base 0 128
read s2 0 128
remove s2
remove vol
remove base
remove cow
remove cow2
disk base 128
disk cow 64
create vol 0 128 snapshot-origin base
write vol 0 65536*11
create snap 0 128 snapshot base cow P 1
disk cow2 64
create s2 0 128 snapshot base cow2 P 1
start snap write 9 512*77
step vol copy-read 1
step vol copy-write 1
step vol flush-store snap
step vol write-area snap
step vol flush-store snap
step vol publish 1
step vol issue 2
start vol write 5 512*aa
step vol copy-read 2
step vol copy-write 2
step vol flush-store snap
step vol write-area snap
step vol flush-store snap
step vol publish 2
step vol copy-read 3
step vol copy-write 3
step vol flush-store s2
step vol write-area s2
step vol flush-store s2
step vol publish 3
step vol issue 3
merge snap
step vol merge-group
step vol merge-read
step vol merge-write
step vol merge-flush
step vol merge-commit
step vol merge-release
step vol merge-group
step vol copy-read 4
stop vol
create vol 0 128 snapshot-origin base
create snap 0 128 snapshot base cow P 1
create s2 0 128 snapshot base cow2 P 1
read snap 0 128
read s2 0 128
merge snap
settle vol
finish vol
save base 0 128
read s2 0 128
remove s2
remove vol
remove base
remove cow
remove cow2
disk base 128
disk cow 64
create vol 0 128 snapshot-origin base
write vol 0 65536*11
create snap 0 128 snapshot base cow P 1
disk cow2 64
create s2 0 128 snapshot base cow2 P 1
start snap write 9 512*77
step vol copy-read 1
step vol copy-write 1
step vol flush-store snap
step vol write-area snap
step vol flush-store snap
step vol publish 1
step vol issue 2
start vol write 5 512*aa
step vol copy-read 2
step vol copy-write 2
step vol flush-store snap
step vol write-area snap
step vol flush-store snap
step vol publish 2
step vol copy-read 3
step vol copy-write 3
step vol flush-store s2
step vol write-area s2
step vol flush-store s2
step vol publish 3
step vol issue 3
merge snap
step vol merge-group
step vol merge-read
step vol merge-write
step vol merge-flush
step vol merge-commit
step vol merge-release
step vol merge-group
step vol copy-read 4
step vol copy-write 4
stop vol
create vol 0 128 snapshot-origin base
create snap 0 128 snapshot base cow P 1
create s2 0 128 snapshot base cow2 P 1
read snap 0 128
read s2 0 128
merge snap
settle vol
finish vol
save base 0 128
read s2 0 128
remove s2
remove vol
remove base
remove cow
remove cow2
disk base 128
disk cow 64
create vol 0 128 snapshot-origin base
write vol 0 65536*11
create snap 0 128 snapshot base cow P 1
disk cow2 64
create s2 0 128 snapshot base cow2 P 1
start snap write 9 512*77
step vol copy-read 1
step vol copy-write 1
step vol flush-store snap
step vol write-area snap
step vol flush-store snap
step vol publish 1
step vol issue 2
start vol write 5 512*aa
step vol copy-read 2
step vol copy-write 2
step vol flush-store snap
step vol write-area snap
step vol flush-store snap
step vol publish 2
step vol copy-read 3
step vol copy-write 3
step vol flush-store s2
step vol write-area s2
step vol flush-store s2
step vol publish 3
step vol issue 3
merge snap
step vol merge-group
step vol merge-read
step vol merge-write
step vol merge-flush
step vol merge-commit
step vol merge-release
step vol merge-group
step vol copy-read 4
step vol copy-write 4
step vol flush-store s2
stop vol
create vol 0 128 snapshot-origin base
create snap 0 128 snapshot base cow P 1
create s2 0 128 snapshot base cow2 P 1
read snap 0 128
read s2 0 128
merge snap
settle vol
finish vol
save base 0 128
read s2 0 128
remove s2
remove vol
remove base
remove cow
remove cow2
disk base 128
disk cow 64
create vol 0 128 snapshot-origin base
write vol 0 65536*11
create snap 0 128 snapshot base cow P 1
disk cow2 64
create s2 0 128 snapshot base cow2 P 1
start snap write 9 512*77
step vol copy-read 1
step vol copy-write 1
step vol flush-store snap
step vol write-area snap
step vol flush-store snap
step vol publish 1
step vol issue 2
start vol write 5 512*aa
step vol copy-read 2
step vol copy-write 2
step vol flush-store snap
step vol write-area snap
step vol flush-store snap
step vol publish 2
step vol copy-read 3
step vol copy-write 3
step vol flush-store s2
step vol write-area s2
step vol flush-store s2
step vol publish 3
step vol issue 3
merge snap
step vol merge-group
step vol merge-read
step vol merge-write
step vol merge-flush
step vol merge-commit
step vol merge-release
step vol merge-group
step vol copy-read 4
step vol copy-write 4
step vol flush-store s2
step vol write-area s2
stop vol
create vol 0 128 snapshot-origin base
create snap 0 128 snapshot base cow P 1
create s2 0 128 snapshot base cow2 P 1
read snap 0 128
read s2 0 128
merge snap
settle vol
finish vol
save base 0 128
read s2 0 128
remove s2
remove vol
remove base
remove cow
remove cow2
disk base 128
disk cow 64
create vol 0 128 snapshot-origin base
write vol 0 65536*11
create snap 0 128 snapshot base cow P 1
disk cow2 64
create s2 0 128 snapshot base cow2 P 1
start snap write 9 512*77
step vol copy-read 1
step vol copy-write 1
step vol flush-store snap
step vol write-area snap
step vol flush-store snap
step vol publish 1
step vol issue 2
start vol write 5 512*aa
step vol copy-read 2
step vol copy-write 2
step vol flush-store snap
step vol write-area snap
step vol flush-store snap
step vol publish 2
step vol copy-read 3
step vol copy-write 3
step vol flush-store s2
step vol write-area s2
step vol flush-store s2
step vol publish 3
step vol issue 3
merge snap
step vol merge-group
step vol merge-read
step vol merge-write
step vol merge-flush
step vol merge-commit
step vol merge-release
step vol merge-group
step vol copy-read 4
step vol copy-write 4
step vol flush-store s2
step vol write-area s2
step vol flush-store s2
stop vol
create vol 0 128 snapshot-origin base
create snap 0 128 snapshot base cow P 1
create s2 0 128 snapshot base cow2 P 1
read snap 0 128
read s2 0 128
merge snap
settle vol
finish vol
save base 0 128
read s2 0 128
remove s2
remove vol
remove base
remove cow
remove cow2
disk base 128
disk cow 64
create vol 0 128 snapshot-origin base
write vol 0 65536*11
create snap 0 128 snapshot base cow P 1
disk cow2 64
create s2 0 128 snapshot base cow2 P 1
start snap write 9 512*77
step vol copy-read 1
step vol copy-write 1
step vol flush-store snap
step vol write-area snap
step vol flush-store snap
step vol publish 1
step vol issue 2
start vol write 5 512*aa
step vol copy-read 2
step vol copy-write 2
step vol flush-store snap
step vol write-area snap
step vol flush-store snap
step vol publish 2
step vol copy-read 3
step vol copy-write 3
step vol flush-store s2
step vol write-area s2
step vol flush-store s2
step vol publish 3
step vol issue 3
merge snap
step vol merge-group
step vol merge-read
step vol merge-write
step vol merge-flush
step vol merge-commit
step vol merge-release
step vol merge-group
step vol copy-read 4
step vol copy-write 4
step vol flush-store s2
step vol write-area s2
step vol flush-store s2
step vol publish 4
stop vol
create vol 0 128 snapshot-origin base
create snap 0 128 snapshot base cow P 1
create s2 0 128 snapshot base cow2 P 1
read snap 0 128
read s2 0 128
merge snap
settle vol
finish vol
save base 0 128
read s2 0 128
remove s2
remove vol
remove base
remove cow
remove cow2
disk base 128
disk cow 64
create vol 0 128 snapshot-origin base
write vol 0 65536*11
create snap 0 128 snapshot base cow P 1
disk cow2 64
create s2 0 128 snapshot base cow2 P 1
start snap write 9 512*77
step vol copy-read 1
step vol copy-write 1
step vol flush-store snap
step vol write-area snap
step vol flush-store snap
step vol publish 1
step vol issue 2
start vol write 5 512*aa
step vol copy-read 2
step vol copy-write 2
step vol flush-store snap
step vol write-area snap
step vol flush-store snap
step vol publish 2
step vol copy-read 3
step vol copy-write 3
step vol flush-store s2
step vol write-area s2
step vol flush-store s2
step vol publish 3
step vol issue 3
merge snap
step vol merge-group
step vol merge-read
step vol merge-write
step vol merge-flush
step vol merge-commit
step vol merge-release
step vol merge-group
step vol copy-read 4
step vol copy-write 4
step vol flush-store s2
step vol write-area s2
step vol flush-store s2
step vol publish 4
step vol merge-read
stop vol
create vol 0 128 snapshot-origin base
create snap 0 128 snapshot base cow P 1
create s2 0 128 snapshot base cow2 P 1
read snap 0 128
read s2 0 128
merge snap
settle vol
finish vol
save base 0 128
read s2 0 128
remove s2
remove vol
remove base
remove cow
remove cow2
disk base 128
disk cow 64
create vol 0 128 snapshot-origin base
write vol 0 65536*11
create snap 0 128 snapshot base cow P 1
disk cow2 64
create s2 0 128 snapshot base cow2 P 1
start snap write 9 512*77
step vol copy-read 1
step vol copy-write 1
step vol flush-store snap
step vol write-area snap
step vol flush-store snap
step vol publish 1
step vol issue 2
start vol write 5 512*aa
step vol copy-read 2
step vol copy-write 2
step vol flush-store snap
step vol write-area snap
step vol flush-store snap
step vol publish 2
step vol copy-read 3
step vol copy-write 3
step vol flush-store s2
step vol write-area s2
step vol flush-store s2
step vol publish 3
step vol issue 3
merge snap
step vol merge-group
step vol merge-read
step vol merge-write
step vol merge-flush
step vol merge-commit
step vol merge-release
step vol merge-group
step vol copy-read 4
step vol copy-write 4
step vol flush-store s2
step vol write-area s2
step vol flush-store s2
step vol publish 4
step vol merge-read
step vol merge-write
stop vol
create vol 0 128 snapshot-origin base
create snap 0 128 snapshot base cow P 1
create s2 0 128 snapshot base cow2 P 1
read snap 0 128
read s2 0 128
merge snap
settle vol
finish vol
save base 0 128
read s2 0 128
remove s2
remove vol
remove base
remove cow
remove cow2
disk base 128
disk cow 64
create vol 0 128 snapshot-origin base
write vol 0 65536*11
create snap 0 128 snapshot base cow P 1
disk cow2 64
create s2 0 128 snapshot base cow2 P 1
start snap write 9 512*77
step vol copy-read 1
step vol copy-write 1
step vol flush-store snap
step vol write-area snap
step vol flush-store snap
step vol publish 1
step vol issue 2
start vol write 5 512*aa
step vol copy-read 2
step vol copy-write 2
step vol flush-store snap
step vol write-area snap
step vol flush-store snap
step vol publish 2
step vol copy-read 3
step vol copy-write 3
step vol flush-store s2
step vol write-area s2
step vol flush-store s2
step vol publish 3
step vol issue 3
merge snap
step vol merge-group
step vol merge-read
step vol merge-write
step vol merge-flush
step vol merge-commit
step vol merge-release
step vol merge-group
step vol copy-read 4
step vol copy-write 4
step vol flush-store s2
step vol write-area s2
step vol flush-store s2
step vol publish 4
step vol merge-read
step vol merge-write
step vol merge-flush
stop vol
create vol 0 128 snapshot-origin base
create snap 0 128 snapshot base cow P 1
create s2 0 128 snapshot base cow2 P 1
read snap 0 128
read s2 0 128
merge snap
settle vol
finish vol
save base 0 128
read s2 0 128
remove s2
remove vol
remove base
remove cow
remove cow2
disk base 128
disk cow 64
create vol 0 128 snapshot-origin base
write vol 0 65536*11
create snap 0 128 snapshot base cow P 1
disk cow2 64
create s2 0 128 snapshot base cow2 P 1
start snap write 9 512*77
step vol copy-read 1
step vol copy-write 1
step vol flush-store snap
step vol write-area snap
step vol flush-store snap
step vol publish 1
step vol issue 2
start vol write 5 512*aa
step vol copy-read 2
step vol copy-write 2
step vol flush-store snap
step vol write-area snap
step vol flush-store snap
step vol publish 2
step vol copy-read 3
step vol copy-write 3
step vol flush-store s2
step vol write-area s2
step vol flush-store s2
step vol publish 3
step vol issue 3
merge snap
step vol merge-group
step vol merge-read
step vol merge-write
step vol merge-flush
step vol merge-commit
step vol merge-release
step vol merge-group
step vol copy-read 4
step vol copy-write 4
step vol flush-store s2
step vol write-area s2
step vol flush-store s2
step vol publish 4
step vol merge-read
step vol merge-write
step vol merge-flush
step vol merge-commit
stop vol
create vol 0 128 snapshot-origin base
create snap 0 128 snapshot base cow P 1
create s2 0 128 snapshot base cow2 P 1
read snap 0 128
read s2 0 128
merge snap
settle vol
finish vol
save base 0 128
read s2 0 128
remove s2
remove vol
remove base
remove cow
remove cow2
disk base 128
disk cow 64
create vol 0 128 snapshot-origin base
write vol 0 65536*11
create snap 0 128 snapshot base cow P 1
disk cow2 64
create s2 0 128 snapshot base cow2 P 1
start snap write 9 512*77
step vol copy-read 1
step vol copy-write 1
step vol flush-store snap
step vol write-area snap
step vol flush-store snap
step vol publish 1
step vol issue 2
start vol write 5 512*aa
step vol copy-read 2
step vol copy-write 2
step vol flush-store snap
step vol write-area snap
step vol flush-store snap
step vol publish 2
step vol copy-read 3
step vol copy-write 3
step vol flush-store s2
step vol write-area s2
step vol flush-store s2
step vol publish 3
step vol issue 3
merge snap
step vol merge-group
step vol merge-read
step vol merge-write
step vol merge-flush
step vol merge-commit
step vol merge-release
step vol merge-group
step vol copy-read 4
step vol copy-write 4
step vol flush-store s2
step vol write-area s2
step vol flush-store s2
step vol publish 4
step vol merge-read
step vol merge-write
step vol merge-flush
step vol merge-commit
step vol merge-release
stop vol
create vol 0 128 snapshot-origin base
create snap 0 128 snapshot base cow P 1
create s2 0 128 snapshot base cow2 P 1
read snap 0 128
read s2 0 128
merge snap
settle vol
finish vol
save base 0 128
read s2 0 128
remove s2
remove vol
remove base
remove cow
remove cow2
