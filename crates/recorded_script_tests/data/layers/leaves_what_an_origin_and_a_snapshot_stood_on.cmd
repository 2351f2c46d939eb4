# What a removed snapshot and origin stood on is there as it was, and can be used again.
# By the admin-guide pages on dm-flakey and dm-dust.
disk base 8
disk cow 16
create vol 0 8 snapshot-origin base
create snap 0 8 snapshot base cow P 1
write snap 1 512*03
remove vol
remove cow
remove snap
remove vol
save cow 2 1
create vol 0 8 snapshot-origin base
create snap 0 8 snapshot base cow P 1
read snap 1 1
read vol 1 1
