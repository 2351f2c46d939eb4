# Stopped after each copy that a merged chunk waits for, and before and after the chunk is written: loaded again, the snapshot of
# the other size shows what it showed, and the merge begins again.
# By the admin-guide page on snapshots; the commands are this project's.
disk base 64
disk dbig 64
disk done 64
create vol 0 64 snapshot-origin base
write vol 0 32768*11
create big 0 64 snapshot base dbig P 2
create one 0 64 snapshot base done P 1
write big 9 512*77
merge big
step vol merge-group
step vol copy-read 2
stop vol
create vol 0 64 snapshot-origin base
create big 0 64 snapshot base dbig P 2
create one 0 64 snapshot base done P 1
status one
read big 8 2
merge big
step vol merge-group
step vol copy-read 1
step vol copy-write 1
step vol flush-store one
step vol write-area one
step vol flush-store one
step vol publish 1
step vol copy-read 2
step vol copy-write 2
stop vol
create vol 0 64 snapshot-origin base
create one 0 64 snapshot base done P 8
create big 0 64 snapshot base dbig P 8
status one
status big
read one 8 2
merge big
step vol merge-group
step vol merge-read
step vol copy-read 1
step vol copy-write 1
step vol flush-store one
step vol write-area one
step vol flush-store one
step vol publish 1
stop vol
save base 9 1
create vol 0 64 snapshot-origin base
create one 0 64 snapshot base done P 1
create big 0 64 snapshot base dbig P 2
status one
merge big
step vol merge-group
step vol merge-read
step vol merge-write
stop vol
save base 9 1
create vol 0 64 snapshot-origin base
create big 0 64 snapshot base dbig P 2
create one 0 64 snapshot base done P 1
read one 8 2
read big 8 2
merge big
settle vol
finish vol
status one
read one 8 2
save base 8 2
