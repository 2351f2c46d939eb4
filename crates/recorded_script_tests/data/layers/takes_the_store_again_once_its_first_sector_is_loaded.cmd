# A stale store stays stale under new layers, until its disk's first sector is loaded.
# By the admin-guide pages on dm-flakey and dm-dust.
disk base 128
disk cow 64
create vol 0 128 snapshot-origin base
write vol 0 65536*11
create fl 0 64 flakey cow 0 1 1 1 error_writes
create snap 0 128 snapshot base fl P 1
tick 1
write vol 5 512*aa
tick 1
status snap
remove snap
load cow 0 512*00
remove fl
create fl 0 64 flakey cow 0 1 1 1 error_writes
create snap 0 128 snapshot base fl P 1
remove snap
remove fl
load cow 0 512*00
create snap 0 128 snapshot base cow P 1
status snap
read snap 5 1
