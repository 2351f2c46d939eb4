# A write over a snapshot's chunks is cut at the least chunk; each snapshot copies its own.
# By the admin-guide page on snapshots; the commands are this project's.
disk base 128
disk da 64
disk db 64
create vol 0 128 snapshot-origin base
write vol 0 65536*11
create a 0 128 snapshot base da P 8
create b 0 128 snapshot base db P 1
write a 5 2048*77
status a
status b
write vol 6 1536*88
status a
status b
read a 4 6
read b 4 6
read vol 4 6
save db 2 3
