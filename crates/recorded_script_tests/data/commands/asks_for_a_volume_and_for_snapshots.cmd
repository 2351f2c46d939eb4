# What `settle` and `step` refuse of devices that are no origins and no snapshots, in order.
# The grammar of lines is this project's.
disk base 128
disk cow 64
create vol 0 128 snapshot-origin base
create snap 0 128 snapshot base cow P 1
settle snap
settle cow
settle nosuch
step vol write-area cow
step vol write-area vol
step vol write-area nosuch
step snap write-area nosuch
step snap write-area snap
step base issue 1
step nosuch issue 1
step nosuch issue
