# A stop without a loss keeps all, and what was not flushed stays so: a later loss takes it away.
# That a disk keeps what was flushed is how a volatile cache is defined; that a volume is stopped by a command is this project's.
disk base 128
disk cow 64
create vol 0 128 snapshot-origin base
write vol 0 65536*11
create snap 0 128 snapshot base cow P 1
remove snap
create snap 0 128 snapshot base cow P 1
write vol 5 512*aa
stop vol
save base 5 1
save cow 1 1
create vol 0 128 snapshot-origin base
read vol 5 1
stop vol lose
save base 5 1
save cow 1 1
