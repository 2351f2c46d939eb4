# A merge makes the origin show what the snapshot showed from its begin on, and the disk hold it once it is settled.
# By the admin-guide page on snapshots (snapshot-merge) and the persistent store's format; the commands are this project's.
disk base 128
disk cow 64
create vol 0 128 snapshot-origin base
write vol 0 65536*11
create snap 0 128 snapshot base cow P 1
write vol 0 20480*aa
status snap
merge snap
read vol 0 1
read snap 0 1
status snap
status vol
settle vol
status vol
finish vol
save base 0 128
status snap
