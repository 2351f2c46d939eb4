# Snapshots of one origin may have different chunk sizes: each keeps its own, and saves the chunks of its own size.
# By the admin-guide page on snapshots; the commands are this project's.
disk base 128
disk cow 64
create vol 0 128 snapshot-origin base
write vol 0 65536*11
create snap 0 128 snapshot base cow P 1
disk cow4 64
create s4 0 128 snapshot base cow4 P 4
save cow4 0 1
save cow4 4 4
table snap
table s4
status s4
write vol 5 512*aa
status snap
status s4
save cow 1 2
save cow4 4 1
save cow4 8 4
read snap 4 4
read s4 4 4
