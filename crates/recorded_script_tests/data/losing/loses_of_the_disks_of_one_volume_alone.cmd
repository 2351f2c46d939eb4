# A loss is of the origin and of the stores that are attached: a store that was given back, and other volumes, keep what they have.
# That a disk keeps what was flushed is how a volatile cache is defined; that a volume is stopped by a command is this project's.
disk base 64
disk cow 16
disk cow2 16
create vol 0 64 snapshot-origin base
write vol 0 32768*11
create snap 0 64 snapshot base cow P 1
create s2 0 64 snapshot base cow2 P 1
disk base2 8
create vol2 0 8 snapshot-origin base2
write vol2 0 4096*22
write snap 3 512*33
write s2 3 512*44
save cow 2 1
save cow2 2 1
remove snap
stop vol lose
save cow 2 1
save cow2 2 1
save base2 0 1
stop vol2 lose
save base2 0 1
