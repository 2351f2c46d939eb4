# Four snapshots of four sizes; each is merged in its turn, and the others keep what they showed.
# By the admin-guide page on snapshots; the commands are this project's.
disk base 64
disk da 64
disk db 64
disk dc 64
disk dd 64
create vol 0 64 snapshot-origin base
write vol 0 32768*11
create a 0 64 snapshot base da P 1
write vol 3 1536*22
create b 0 64 snapshot base db P 2
write vol 5 2048*33
create c 0 64 snapshot base dc P 8
write vol 0 512*44
create d 0 64 snapshot base dd P 4
write vol 6 1024*55
status a
status b
status c
status d
merge d
table vol
table d
status vol
settle vol
status vol
finish vol
read vol 0 9
read a 0 9
read b 0 9
read c 0 9
merge b
settle vol
finish vol
read vol 0 9
read a 0 9
read c 0 9
merge c
settle vol
finish vol
read vol 0 9
read a 0 9
merge a
settle vol
finish vol
save base 0 9
