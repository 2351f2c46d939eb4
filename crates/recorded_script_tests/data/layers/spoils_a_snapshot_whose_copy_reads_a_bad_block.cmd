# A bad block of the origin fails the copy, which spoils the snapshot; the write itself heals the block.
# By the admin-guide pages on dm-flakey and dm-dust.
disk base 128
disk cow 64
create du 0 128 dust base 0 1024
create vol 0 128 snapshot-origin du
write vol 0 65536*11
create snap 0 128 snapshot du cow P 1
message du 0 addbadblock 2
message du 0 addbadblock 2
message du 0 countbadblocks
message du 0 addbadblock 64
message du 0 quiet
message du 0 enable
read vol 4 1
write vol 4 512*aa
status snap
message du 0 queryblock 2
read vol 5 1
