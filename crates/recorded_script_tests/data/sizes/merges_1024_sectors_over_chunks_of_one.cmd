# The greatest chunk beside the least: a merged chunk of 1024 sectors has each of them saved before it is written, and where one is
# missing for want of room, that snapshot is lost and the merge goes on.
# By the admin-guide page on snapshots; the commands are this project's.
disk base 1100
disk dbig 4096
disk done 1200
disk dless 1000
create vol 0 1100 snapshot-origin base
write vol 0 563200*11
create big 0 1100 snapshot base dbig P 1024
create one 0 1100 snapshot base done P 1
create less 0 1100 snapshot base dless P 1
write big 7 512*77
write one 1023 512*66
status big
status one
status less
merge big
step vol merge-group
step vol merge-read
step vol merge-write
start vol write 1030 512*55
settle vol
status vol
status one
status less
read one 0 8
read one 1022 4
read vol 0 9
write vol 1025 512*44
read one 1024 8
finish vol
save base 6 2
save base 1023 8
