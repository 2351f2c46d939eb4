# An origin has the size of its device; a device is the store of one snapshot alone.
# By the admin-guide pages on dm-flakey and dm-dust.
disk base 8
disk cow 16
load base 5 512*01
create fl 0 8 flakey base 0 1 1 1 error_writes
create vol 0 6 snapshot-origin fl
create vol 0 8 snapshot-origin fl
create snap 0 8 snapshot fl cow P 1
create more 0 8 snapshot fl cow P 1
read cow 0 1
tick 1
write vol 5 512*02
tick 1
write vol 5 512*02
read vol 5 1
read snap 5 1
status snap
