# A write of a chunk of the present group waits until the group is done; one of another chunk is served at once, and ends before it.
# The order of the events is that of docs/DESIGN.md, merging back; the commands are this project's.
disk base 128
disk cow 64
create vol 0 128 snapshot-origin base
write vol 0 65536*11
create snap 0 128 snapshot base cow P 1
write vol 3 512*aa
write vol 8 512*aa
merge snap
step vol merge-group
start vol write 8 512*55
write vol 3 512*44
read vol 8 1
settle vol
read vol 3 1
read vol 8 1
finish vol
save base 3 1
save base 8 1
