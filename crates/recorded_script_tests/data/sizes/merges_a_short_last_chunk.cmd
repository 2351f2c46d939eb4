# The origin's last chunk has two sectors of a chunk of eight: the other snapshots save just those.
# By the admin-guide page on snapshots; the commands are this project's.
disk base 130
disk dbig 64
disk done 64
disk dtwo 64
create vol 0 130 snapshot-origin base
write vol 0 66560*11
create big 0 130 snapshot base dbig P 8
create one 0 130 snapshot base done P 1
create two 0 130 snapshot base dtwo P 2
write big 129 512*77
status big
merge big
settle vol
status one
status two
status vol
read one 128 2
read two 128 2
finish vol
save base 128 2
