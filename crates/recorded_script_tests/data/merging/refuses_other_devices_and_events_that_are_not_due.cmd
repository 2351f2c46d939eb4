# What `merge`, `resume`, `finish` and a merge's events refuse, in order, and what other commands refuse while a merge is begun.
# The commands and the order of their refusals are this project's own.
disk base 128
disk cow 64
disk cow2 64
disk tiny 2
create vol 0 128 snapshot-origin base
create snap 0 128 snapshot base cow P 1

# Of other devices, of wrong words, and before a merge is begun.
merge vol
merge base
merge cow
merge cow2
merge nosuch
merge snap snap
resume snap
resume nosuch
finish snap
finish nosuch
step vol merge-group
step vol merge-group 1
step snap merge-group
step nosuch merge-group

# A merge of one pair is begun.
write snap 9 512*77
merge snap
resume vol
finish vol
create s2 0 128 snapshot base cow2 P 1
remove snap
remove vol
remove cow
merge cow
write snap 9 512*78
write snap 127 1024*78
start snap read 9 1
table vol
table snap

# Its events, each only where it is due. A group is as good as a pair that is left.
step vol merge-area-read
step vol merge-read
step vol write-area snap
step vol merge-group
step vol merge-group
step vol merge-write
step vol merge-flush
finish vol
settle vol
step vol merge-group
finish vol
table vol
save base 9 1

# Other snapshots are taken and merged again, but none that is spoiled, and none while a request is in flight.
create s2 0 128 snapshot base cow2 P 1
create s3 0 128 snapshot base tiny P 1
write vol 0 512*aa
merge s3
start vol write 3 512*44
merge s2
settle vol
merge s2
