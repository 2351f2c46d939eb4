# Stale is told before NotQuiet.
# By the admin-guide pages on dm-flakey and dm-dust.
disk base 128
disk cow 64
create vol 0 128 snapshot-origin base
write vol 0 65536*11
create fl 0 64 flakey cow 0 1 1 1 error_writes
create snap 0 128 snapshot base fl P 1
tick 1
write vol 5 512*aa
tick 1
status snap
remove snap
start vol read 0 1
create snap 0 128 snapshot base fl P 1
disk cow2 64
create snap 0 128 snapshot base cow2 P 1
save cow2 0 64
settle vol
create snap 0 128 snapshot base fl P 1
create snap 0 128 snapshot base cow2 P 1
