# Another snapshot whose store has no room for a chunk that a merge overwrites is lost; the merge goes on.
# By the admin-guide page on snapshots; the commands are this project's.
disk base 128
disk cow 64
create vol 0 128 snapshot-origin base
write vol 0 65536*11
create snap 0 128 snapshot base cow P 1
disk cow2 2
create s2 0 128 snapshot base cow2 P 1
status s2
write snap 9 512*77
merge snap
settle vol
status s2
status vol
finish vol
save base 9 1
