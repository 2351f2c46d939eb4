# Another snapshot shows what it showed: the chunks that a merge overwrites are saved for it first.
# By the admin-guide page on snapshots and the format of the kernel's persistent store; the commands are this project's.
disk base 128
disk cow 64
create vol 0 128 snapshot-origin base
write vol 0 65536*11
create snap 0 128 snapshot base cow P 1
disk cow2 64
create s2 0 128 snapshot base cow2 P 1
write snap 9 512*77
write vol 5 512*aa
status s2
merge snap
settle vol
read s2 9 1
read s2 5 1
read vol 9 1
read vol 5 1
status s2
