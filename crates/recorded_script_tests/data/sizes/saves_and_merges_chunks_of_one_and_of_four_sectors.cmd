# Snapshots of one origin, one in chunks of one sector and one in chunks of four. A write of one sector saves a chunk of each; a
# merged chunk of four has all its four sectors saved in the other.
# By the admin-guide page on snapshots; the commands are this project's.
disk base 128
disk cow 64
create vol 0 128 snapshot-origin base
write vol 0 65536*11
create snap 0 128 snapshot base cow P 1
disk cow4 64
create s4 0 128 snapshot base cow4 P 4
write vol 5 512*aa
status snap
status s4
save cow4 4 1
save cow4 8 4
write vol 6 512*bb
status s4
merge s4
read vol 5 1
settle vol
status snap
status vol
read snap 4 4
finish vol
save base 4 4
