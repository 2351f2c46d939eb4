# Of two snapshots whose stores overflowed one is merged: its mark goes with the begin, and its line says `PO` until the end. The
# other is spoiled by the merge.
# By the admin-guide page on snapshots; the commands are this project's.
disk base 128
disk cow 4
create vol 0 128 snapshot-origin base
write vol 0 65536*11
create snap 0 128 snapshot base cow PO 1
disk cow2 3
create s2 0 128 snapshot base cow2 PO 1
write s2 0 512*91
write s2 1 512*92
status s2
write snap 0 1024*77
write snap 9 512*77
status snap
table s2
merge snap
table vol
table snap
status snap
status vol
write snap 0 512*55
status s2
settle vol
status s2
status vol
table vol
finish vol
table vol
read s2 0 1
save base 0 2
