# A write of a snapshot whose store is full and may overflow is refused, and does not spoil it: it shows what it showed. A write
# of the origin that finds the store full spoils it.
# By the admin-guide page on snapshots; the commands are this project's.
disk base 128
disk cow 3
create vol 0 128 snapshot-origin base
write vol 0 65536*11
create snap 0 128 snapshot base cow PO 1
write snap 0 512*77
status snap
write snap 1 512*77
status snap
read snap 0 1
write vol 9 512*aa
status snap
