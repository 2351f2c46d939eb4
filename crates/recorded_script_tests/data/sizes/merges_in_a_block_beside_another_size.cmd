# A block with a merge of chunks of four sectors beside a snapshot in chunks of one, which is read and written meanwhile.
# By the admin-guide page on snapshots; the commands are this project's.
disk base 64
disk dbig 64
disk done 64
create vol 0 64 snapshot-origin base
write vol 0 32768*11
create big 0 64 snapshot base dbig P 4
create one 0 64 snapshot base done P 1
write big 9 512*77
par
1 merge big
1 write vol 40 1024*aa
2 write one 20 512*bb
2 read one 20 2
3 read one 8 4
end
status one
status vol
finish vol
save base 8 4
save base 40 2
read one 40 2
start vol read 40 2
