# What fails reads lets flushes and writes through: a store that was attached before can't be read, the origin is flushed all the same.
# That an attach flushes is this project's; what a layer does with it is dm-flakey's page.
disk base 128
disk cow 64
create fl 0 128 flakey base 0 1 1 1 error_reads
create vol 0 128 snapshot-origin fl
write vol 0 65536*11
tick 1
create snap 0 128 snapshot fl cow P 1
status snap
write vol 5 512*aa
status snap
tick 1
read vol 5 1
