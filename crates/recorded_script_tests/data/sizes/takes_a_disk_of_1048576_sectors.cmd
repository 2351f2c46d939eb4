# A disk of 2^20 sectors, an origin over it, and a snapshot of that: the last sector is kept as any other.
# By the admin-guide page on snapshots; the commands are this project's.
disk base 1048576
disk cow 64
save base 1048575 1
save base 1048576 1
load base 1048575 512*11
save base 1048574 2
create vol 0 1048576 snapshot-origin base
create snap 0 1048576 snapshot base cow P 8
write vol 1048575 512*aa
read vol 1048574 2
read snap 1048574 2
write vol 1048576 512*aa
status snap
table vol
