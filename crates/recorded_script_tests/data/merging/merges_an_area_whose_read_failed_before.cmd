# A merge stops where the area before can't be read, and merges the pairs of that area once it is resumed.
# By the admin-guide pages on snapshots and dm-dust and the persistent store's format; the commands are this project's.
disk base 128
disk cow 64
create vol 0 128 snapshot-origin base
write vol 0 65536*11
create du 0 64 dust cow 0 512
create snap 0 128 snapshot base du P 1
write vol 0 20480*aa
message du 0 addbadblock 1
message du 0 enable
merge snap
settle vol
status vol
save base 31 2
read vol 0 40
finish vol
message du 0 removebadblock 1
resume vol
status vol
settle vol
status vol
finish vol
save base 0 128
