# Table lines of origins and snapshots are printed without leading zeros and with the store's chunk size; disks have none.
# The grammar of lines is this project's.
disk base 130
disk cow 64
disk cow2 64
create vol 0 0130 snapshot-origin base
create snap 0 130 snapshot base cow P 4
create s2 0 130 snapshot base cow2 P 4 0
table vol
table s2
table snap
table base
table cow2
table nosuch
remove snap
table s2
table cow
