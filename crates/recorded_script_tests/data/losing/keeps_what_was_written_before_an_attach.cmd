# An attach flushes the origin: what was written before it is kept.
# That a disk keeps what was flushed is how a volatile cache is defined; that a volume is stopped by a command is this project's.
disk base 128
disk cow 64
create vol 0 128 snapshot-origin base
write vol 0 65536*11
create snap 0 128 snapshot base cow P 1
remove snap
write vol 9 512*aa
create snap 0 128 snapshot base cow P 1
stop vol lose
save base 9 1
create vol 0 128 snapshot-origin base
write vol 10 512*bb
stop vol lose
save base 9 2
