# A store whose mark of a spoiled snapshot was not written is stale, and is not taken again.
# By the admin-guide pages on dm-flakey and dm-dust.
disk base 128
disk cow 64
create vol 0 128 snapshot-origin base
write vol 0 65536*11
create fl 0 64 flakey cow 0 1 1 1 error_writes
create snap 0 128 snapshot base fl P 1
tick 1
write vol 5 512*aa
status snap
read vol 5 1
tick 1
status snap
remove snap
create snap 0 128 snapshot base fl P 1
