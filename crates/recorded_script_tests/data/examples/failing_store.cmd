# A store that fails in the middle: the snapshot is lost, the origin goes on, and the store is not trusted again.
disk base 128
disk cow 64
create vol 0 128 snapshot-origin base
write vol 0 65536*11

# The store stands behind a flakey layer: one second up, one second down, and while it is down writes fail.
create fl 0 64 flakey cow 0 1 1 1 error_writes
table fl
create snap 0 128 snapshot base fl P 1

# A second later the store fails writes. A write of the origin can't save the old chunk, so the snapshot is lost; the write
# itself is done.
tick 1
write vol 5 512*aa
status snap
read snap 5 1
read vol 5 1

# A second later the store works again; the snapshot stays lost.
tick 1
status snap

# What is left: the mark that makes the header invalid could not be written either, so the header still says valid. That the
# store is stale is remembered here (the kernel forgets it, and would show changed data): it is not attached again.
save cow 0 1
remove snap
create snap 0 128 snapshot base fl P 1

# Until its first sector is loaded. Zeros make it a fresh store.
remove fl
load cow 0 512*00
create snap 0 128 snapshot base cow P 1
write vol 5 512*bb
read snap 5 1
status snap
