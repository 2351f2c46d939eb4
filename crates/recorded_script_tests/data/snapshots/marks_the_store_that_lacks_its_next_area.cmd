# The write whose pair would fill the first area of a store without room for a second one spoils the snapshot.
# By the admin-guide page on snapshots and the format of the kernel's persistent store.
disk base 128
disk cow 34
create vol 0 128 snapshot-origin base
write vol 0 65536*11
create snap 0 128 snapshot base cow P 1
write vol 0 15872*aa
status snap
write vol 31 512*aa
status snap
