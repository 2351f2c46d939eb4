# A chunk of four sectors is merged over a snapshot of one, whose store has two places left: the third copy finds it full, in the
# publication of the second.
# By the admin-guide page on snapshots; the commands are this project's.
disk base 128
disk dbig 64
disk dsmall 4
create vol 0 128 snapshot-origin base
write vol 0 65536*11
create big 0 128 snapshot base dbig P 4
create small 0 128 snapshot base dsmall P 1
write big 9 512*77
merge big
step vol merge-group
status small
step vol copy-read 2
step vol copy-write 2
step vol flush-store small
step vol write-area small
step vol flush-store small
step vol publish 2
status small
step vol merge-read
step vol merge-write
step vol copy-read 3
step vol copy-write 3
step vol flush-store small
step vol write-area small
step vol flush-store small
step vol publish 3
status small
read small 8 1
step vol merge-write
step vol write-invalid small
step vol flush-store small
step vol merge-write
settle vol
status vol
finish vol
save base 8 4
