# Eight snapshots in chunks of 1, 2, 4 and so on to 128 sectors are merged, the greatest first: 128 sectors are saved one by one in
# the least. The piece is one sector to the end.
# By the admin-guide page on snapshots; the commands are this project's.
disk base 256
disk d1 300
disk d2 300
disk d4 300
disk d8 300
disk d16 300
disk d32 300
disk d64 384
disk d128 768
create vol 0 256 snapshot-origin base
write vol 0 65536*11 65536*12
create s1 0 256 snapshot base d1 P 1
create s2 0 256 snapshot base d2 P 2
create s4 0 256 snapshot base d4 P 4
create s8 0 256 snapshot base d8 P 8
create s16 0 256 snapshot base d16 P 16
create s32 0 256 snapshot base d32 P 32
create s64 0 256 snapshot base d64 P 64
create s128 0 256 snapshot base d128 P 128
write vol 5 512*aa
write vol 130 512*bb
write s128 9 512*77
write s128 200 512*78
status s1
status s2
status s4
status s8
status s16
status s32
status s64
status s128
merge s128
read vol 5 5
settle vol
status vol
finish vol
status s64
status s32
status s16
status s8
status s4
status s2
status s1
start vol read 0 256
start vol read 128 256
settle vol
write vol 130 512*80
merge s64
read vol 5 5
settle vol
status vol
finish vol
status s32
status s16
status s8
status s4
status s2
status s1
start vol read 0 128
start vol read 64 128
settle vol
write vol 130 512*40
merge s32
read vol 5 5
settle vol
status vol
finish vol
status s16
status s8
status s4
status s2
status s1
start vol read 0 64
start vol read 32 64
settle vol
write vol 130 512*20
merge s16
read vol 5 5
settle vol
status vol
finish vol
status s8
status s4
status s2
status s1
start vol read 0 32
start vol read 16 32
settle vol
write vol 130 512*10
merge s8
read vol 5 5
settle vol
status vol
finish vol
status s4
status s2
status s1
start vol read 0 16
start vol read 8 16
settle vol
write vol 130 512*08
merge s4
read vol 5 5
settle vol
status vol
finish vol
status s2
status s1
start vol read 0 8
start vol read 4 8
settle vol
write vol 130 512*04
merge s2
read vol 5 5
settle vol
status vol
finish vol
status s1
start vol read 0 4
start vol read 2 4
settle vol
write vol 130 512*02
read s1 0 12
merge s1
settle vol
finish vol
save base 0 256
