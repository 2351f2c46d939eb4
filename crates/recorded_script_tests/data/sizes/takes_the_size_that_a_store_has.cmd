# The size of a written store counts and not that of the line, also beside other snapshots; the piece goes by it.
# By the admin-guide page on snapshots; the commands are this project's.
disk base 64
disk done 64
disk dtwo 64
create vol 0 64 snapshot-origin base
write vol 0 32768*11
create four 0 64 snapshot base done P 4
write vol 5 512*aa
remove four
create two 0 64 snapshot base dtwo P 2
create four 0 64 snapshot base done P 1
table four
read four 4 4
start vol read 2 2
start vol read 3 2
settle vol
write vol 6 1024*bb
status four
status two
read two 4 4
read four 4 4
remove two
start vol read 4 4
settle vol
