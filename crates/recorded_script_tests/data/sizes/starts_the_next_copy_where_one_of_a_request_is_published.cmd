# The merge waits for a copy that a write of the snapshot started: its publication starts the copy of the next chunk.
# By the admin-guide page on snapshots; the commands are this project's.
disk base 128
disk dbig 64
disk done 64
create vol 0 128 snapshot-origin base
write vol 0 65536*11
create big 0 128 snapshot base dbig P 2
create one 0 128 snapshot base done P 1
write big 8 512*71
merge big
start one write 8 512*81
step vol merge-group
status one
step vol copy-read 2
step vol copy-write 2
step vol flush-store one
step vol write-area one
step vol flush-store one
step vol publish 2
status one
step vol copy-read 3
settle vol
read one 8 2
status one
finish vol
save base 8 2
