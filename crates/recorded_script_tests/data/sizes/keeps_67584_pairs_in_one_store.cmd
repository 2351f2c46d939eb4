# 67,584 pairs in one store, in chunks of one sector: more than 65,536. Each is found again, and the whole is merged.
# By the admin-guide page on snapshots, the numbers as dm-snap-persistent.c counts them; the commands are this project's.
disk base 67584
disk cow 70000
create vol 0 67584 snapshot-origin base
create snap 0 67584 snapshot base cow P 1
write vol 0 1048576*01
write vol 2048 1048576*08
write vol 4096 1048576*0f
write vol 6144 1048576*16
write vol 8192 1048576*1d
write vol 10240 1048576*24
write vol 12288 1048576*2b
write vol 14336 1048576*32
write vol 16384 1048576*39
write vol 18432 1048576*40
write vol 20480 1048576*47
write vol 22528 1048576*4e
write vol 24576 1048576*55
write vol 26624 1048576*5c
write vol 28672 1048576*63
write vol 30720 1048576*6a
checkpoint vol
write vol 32768 1048576*71
write vol 34816 1048576*78
write vol 36864 1048576*7f
write vol 38912 1048576*86
write vol 40960 1048576*8d
write vol 43008 1048576*94
write vol 45056 1048576*9b
write vol 47104 1048576*a2
write vol 49152 1048576*a9
write vol 51200 1048576*b0
write vol 53248 1048576*b7
write vol 55296 1048576*be
write vol 57344 1048576*c5
write vol 59392 1048576*cc
write vol 61440 1048576*d3
write vol 63488 1048576*da
write vol 65536 1048576*e1
status snap
checkpoint vol
read snap 0 1
read vol 0 1
read snap 65536 1
read vol 65536 1
read snap 65535 1
read vol 65535 1
read snap 65536 1
read vol 65536 1
read snap 67583 1
read vol 67583 1
merge snap
read vol 65536 2
settle vol
status vol
finish vol
save base 0 2048
save base 65536 2048
