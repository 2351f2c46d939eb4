# A spoil's mark is flushed by an event of its own, so a flush of the origin adds nothing to it: the store is refused, and the write lasts.
# That a disk keeps what was flushed is how a volatile cache is defined; that a volume is stopped by a command is this project's.
disk base 32
disk cow 3
create vol 0 32 snapshot-origin base
write vol 0 16384*11
create snap 0 32 snapshot base cow P 1
write vol 3 512*aa
write vol 4 512*bb
status snap
flush snap
flush vol
stop vol lose
save base 3 2
create vol 0 32 snapshot-origin base
create snap 0 32 snapshot base cow P 1
