# Raw sectors of a disk, used or not, go to the same place of another, which nothing uses: first the rules of save, then those of load.
# The command is this project's own.
disk a 4
disk b 3
load a 1 512*11 512*22
copy a 1 b 2
save b 0 3
copy a 0 a 1
save a 0 4
copy a 0 b 0
copy nosuch 0 b 2049
copy nosuch 0 alsono 1
create vol 0 4 snapshot-origin a
copy vol 0 b 1
copy a 3 b 2
copy a 3 nosuch 2
copy a 0 nosuch 1
copy b 0 vol 1
copy a 3 b 1
copy b 0 a 1
copy b 0 a 4
load b 1 512*77
copy a 1 b 1
save b 0 3
copy a 0 b
copy a 0 b 1 1
copy a x b 1
copy a 0 B 1
copy
# A store that grows: its bytes go to a larger disk, and it is attached there.
disk base 8
disk cow 6
create orig 0 8 snapshot-origin base
create snap 0 8 snapshot base cow P 1
write orig 0 512*aa 512*bb
status snap
remove snap
disk cow2 16
copy cow 0 cow2 6
create snap 0 8 snapshot base cow2 P 1
status snap
read snap 0 2
save base 0 2
copy cow 0 cow2 6
