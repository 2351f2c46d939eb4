# A snapshot whose store overflowed is merged as each other.
# By the admin-guide page on snapshots; the commands are this project's.
disk base 128
disk cow 3
create vol 0 128 snapshot-origin base
write vol 0 65536*11
create snap 0 128 snapshot base cow PO 1
table snap
write snap 0 512*77
write snap 1 512*77
write snap 0 512*55
merge snap
status vol
read vol 0 1
settle vol
status vol
finish vol
save base 0 1
