# A write of one sector of a chunk of four that is being merged waits for the release; one of another sector of it too.
# By the admin-guide page on snapshots; the commands are this project's.
disk base 128
disk dbig 64
disk done 64
create vol 0 128 snapshot-origin base
write vol 0 65536*11
create big 0 128 snapshot base dbig P 4
create one 0 128 snapshot base done P 1
write big 8 512*71
merge big
step vol merge-group
start vol write 8 512*81
start vol write 10 512*82
step vol issue 3
read vol 8 4
settle vol
read vol 8 4
read one 8 4
status one
finish vol
save base 8 4
