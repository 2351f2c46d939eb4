# Of the four copies that a merged chunk waits for the second fails: the snapshot is lost, the merge waits for its mark and then
# goes on, and what another snapshot shows stays.
# By the admin-guide page on snapshots; the commands are this project's.
disk base 64
disk dbig 64
disk done 64
create uone 0 64 dust done 0 512
create fone 0 64 flakey uone 0 3 1 1 error_writes
disk dtwo 64
create vol 0 64 snapshot-origin base
write vol 0 32768*11
create big 0 64 snapshot base dbig P 4
create one 0 64 snapshot base fone P 1
create two 0 64 snapshot base dtwo P 2
write big 9 512*77
merge big
step vol merge-group
step vol copy-read 2
step vol copy-write 2
step vol flush-store one
step vol write-area one
step vol flush-store one
step vol publish 2
step vol copy-read 4
tick 3
step vol copy-write 4
tick 1
status one
step vol merge-read
step vol merge-write
step vol copy-read 3
step vol copy-write 3
step vol flush-store two
step vol write-area two
step vol flush-store two
step vol publish 3
step vol merge-write
step vol write-invalid one
step vol merge-write
settle vol
status one
status two
status vol
read two 8 4
finish vol
save base 8 4
