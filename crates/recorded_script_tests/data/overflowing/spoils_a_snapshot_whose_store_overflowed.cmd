# A write of the origin that finds the store full spoils a snapshot that refused writes before. Its store is not taken again.
# By the admin-guide page on snapshots; the commands are this project's.
disk base 128
disk cow 4
create vol 0 128 snapshot-origin base
write vol 0 65536*11
create snap 0 128 snapshot base cow PO 1
write snap 0 1024*77
write snap 2 512*77
status snap
write vol 0 1024*aa
status snap
read snap 0 2
write vol 2 512*aa
status snap
write snap 0 512*77
save cow 0 1
remove snap
create snap 0 128 snapshot base cow PO 1
