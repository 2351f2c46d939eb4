# What was written to a snapshot is what the origin shows and holds after its merge.
# By the admin-guide page on snapshots (snapshot-merge); the commands are this project's.
disk base 128
disk cow 64
create vol 0 128 snapshot-origin base
write vol 0 65536*11
create snap 0 128 snapshot base cow P 1
write snap 9 512*77
read vol 9 1
merge snap
read vol 9 1
settle vol
finish vol
save base 9 1
