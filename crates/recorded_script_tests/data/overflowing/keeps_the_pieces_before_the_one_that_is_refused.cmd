# Of a write of four chunks two find room in the store. They stand, and the third is refused.
# By the admin-guide page on snapshots; the commands are this project's.
disk base 128
disk cow 4
create vol 0 128 snapshot-origin base
write vol 0 65536*11
create snap 0 128 snapshot base cow PO 1
write snap 0 2048*77
status snap
read snap 0 4
