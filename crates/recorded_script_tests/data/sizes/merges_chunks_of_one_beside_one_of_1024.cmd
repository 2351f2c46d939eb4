# The least chunk is merged beside the greatest: each chunk of 1024 sectors that is touched is saved once and whole, the short last
# one short.
# By the admin-guide page on snapshots; the commands are this project's.
disk base 1030
disk dbig 4096
disk done 64
create vol 0 1030 snapshot-origin base
write vol 0 527360*11
create one 0 1030 snapshot base done P 1
create big 0 1030 snapshot base dbig P 1024
write one 3 512*71
write one 900 512*72
write one 1029 512*73
status big
merge one
settle vol
status big
status vol
finish vol
read big 1020 10
read vol 1020 10
save base 3 1
save dbig 1024 1
