# A snapshot is taken away and attached again: all that it saved stands on its store.
disk base 128
disk cow 64
create vol 0 128 snapshot-origin base
write vol 0 65536*11
create snap 0 128 snapshot base cow P 1
write vol 5 512*aa
write snap 9 512*77
status snap

# Both go, the origin last. The disks keep their sectors: the pairs (5, 2) and (9, 3), the old chunk 5, the written chunk 9.
remove snap
remove vol
save cow 1 1
save cow 2 2

# Made again, also with another chunk size in its line: a written store keeps its own.
create vol 0 128 snapshot-origin base
create snap 0 128 snapshot base cow P 8
table snap
status snap
read snap 5 1
read snap 9 1
read snap 10 1

# While a snapshot is away nothing is saved for it. What the origin is written then, the snapshot shows afterwards.
remove snap
write vol 20 512*bb
write vol 5 512*cc
create snap 0 128 snapshot base cow P 1
read snap 20 1
read snap 5 1
status snap
