# A snapshot of four sectors a chunk beside a merge of chunks of one: the merged chunks 8 and 9 lie in its chunk 2, which is
# copied once, before either is written.
# By the admin-guide page on snapshots; the commands are this project's.
disk base 128
disk done 64
disk dfour 64
create vol 0 128 snapshot-origin base
write vol 0 65536*11
create one 0 128 snapshot base done P 1
create four 0 128 snapshot base dfour P 4
write one 8 512*71
write one 9 512*72
write one 30 512*73
merge one
read vol 8 2
read four 8 2
step vol merge-group
status four
settle vol
status four
status vol
read four 8 4
read four 28 4
finish vol
save base 8 2
save base 30 1
save dfour 4 1
save dfour 8 8
