# The read of the merged chunk fails while the copies for it go on one after the other; the merge fails, no copy is started beside
# it, and once it is resumed the copies go on where they stopped.
# By the admin-guide page on snapshots; the commands are this project's.
disk base 64
disk dbig 64
create ubig 0 64 dust dbig 0 512
disk done 64
create vol 0 64 snapshot-origin base
write vol 0 32768*11
create big 0 64 snapshot base ubig P 4
create one 0 64 snapshot base done P 1
write big 9 512*77
message ubig 0 addbadblock 8
message ubig 0 enable
merge big
step vol merge-group
step vol copy-read 2
step vol merge-read
status vol
step vol copy-write 2
step vol flush-store one
step vol write-area one
step vol flush-store one
step vol publish 2
step vol copy-read 3
status one
settle vol
message ubig 0 disable
resume vol
step vol merge-group
status one
step vol merge-read
step vol merge-write
step vol copy-read 3
step vol copy-write 3
step vol flush-store one
step vol write-area one
step vol copy-read 4
step vol flush-store one
step vol publish 3
step vol copy-read 4
settle vol
status one
status vol
read one 8 4
finish vol
save base 8 4
