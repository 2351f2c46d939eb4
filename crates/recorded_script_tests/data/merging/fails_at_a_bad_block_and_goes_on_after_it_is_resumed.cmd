# A merge stops where its store can't be read, loses nothing, and goes on once it is resumed.
# By the admin-guide pages on snapshots and dm-dust; that a merge is resumed by a command is this project's.
disk base 128
disk cow 64
create vol 0 128 snapshot-origin base
write vol 0 65536*11
create du 0 64 dust cow 0 512
create snap 0 128 snapshot base du P 1
write vol 5 512*aa
write vol 20 512*bb
message du 0 addbadblock 2
message du 0 enable
merge snap
settle vol
status vol
read vol 20 1
read vol 5 1
message du 0 disable
read vol 5 1
resume vol
settle vol
status vol
finish vol
save base 5 1
