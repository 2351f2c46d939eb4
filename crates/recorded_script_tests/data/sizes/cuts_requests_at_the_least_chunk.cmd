# Requests lie inside one piece, which is as large as the least chunk, also of a snapshot that is lost, and of one that is merged.
# By the admin-guide page on snapshots; the commands are this project's.
disk base 128
disk c8 64
disk c4 64
disk c2 4
create vol 0 128 snapshot-origin base
start vol read 0 128
settle vol
create s8 0 128 snapshot base c8 P 8
start vol read 8 8
start vol read 6 4
settle vol
create s4 0 128 snapshot base c4 P 4
start vol read 8 8
start vol read 8 4
settle vol
create s2 0 128 snapshot base c2 P 2
start vol read 8 4
write vol 0 1024*aa
status s2
write vol 8 1024*aa
status s2
start vol read 8 4
remove s2
start vol read 8 4
settle vol
merge s4
start vol read 8 8
start vol read 8 4
settle vol
settle vol
finish vol
start vol read 8 8
settle vol
