# An origin has at most eight snapshots; the store of a ninth stays as it was.
# By the admin-guide page on snapshots and the format of the kernel's persistent store.
disk base 128
create vol 0 128 snapshot-origin base
write vol 0 65536*11
disk c1 8
create s1 0 128 snapshot base c1 P 1
disk c2 8
create s2 0 128 snapshot base c2 P 1
disk c3 8
create s3 0 128 snapshot base c3 P 1
disk c4 8
create s4 0 128 snapshot base c4 P 1
disk c5 8
create s5 0 128 snapshot base c5 P 1
disk c6 8
create s6 0 128 snapshot base c6 P 1
disk c7 8
create s7 0 128 snapshot base c7 P 1
disk c8 8
create s8 0 128 snapshot base c8 P 1
disk c9 8
create s9 0 128 snapshot base c9 P 1
save c9 0 8
