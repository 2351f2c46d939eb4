# Writes of the origin and of the snapshot to one chunk, and a write that fails while a layer is down.
# By the admin-guide pages on dm-flakey and dm-dust.
disk base 128
create fl 0 128 flakey base 0 2 1
create vol 0 128 snapshot-origin fl
disk cow 64
create store 0 64 flakey cow 0 1 1
create snap 0 128 snapshot fl store P 8
write vol 3 512*11
read snap 3 1
write snap 4 512*22
read snap 3 2
read vol 3 2
status snap
write fl 0 512*01
tick 2
write vol 3 512*33
tick 1
read vol 3 1
