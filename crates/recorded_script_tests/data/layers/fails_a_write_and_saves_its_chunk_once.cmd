# A write of an origin whose disk fails answers Io; its chunk was saved, and is not saved again.
# By the admin-guide pages on dm-flakey and dm-dust.
disk base 128
disk cow 64
create fl 0 128 flakey base 0 1 1 1 error_writes
create vol 0 128 snapshot-origin fl
write vol 0 65536*11
create snap 0 128 snapshot fl cow P 1
tick 1
write vol 5 512*aa
read vol 5 1
status snap
tick 1
write vol 5 512*aa
status snap
read snap 5 1
