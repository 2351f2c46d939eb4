# A wrong word, an unknown name and sectors past the end are refused before the overflow, and the overflow before sectors of two
# pieces. The same store attached as one that may not overflow is valid, until its own write finds it full.
# By the admin-guide page on snapshots; the commands are this project's.
disk base 128
disk cow 4
create vol 0 128 snapshot-origin base
write vol 0 65536*11
create snap 0 128 snapshot base cow PO 1
write snap 0 1024*77
write snap 2 512*77
status snap
start snap write 0 1024*77
start snap read 0 2
write snap 127 1024*77
read snap 127 2
write snap 0 1537*77
write nosuch 0 512*77
read snap 0 2
remove snap
create snap 0 128 snapshot base cow P 1
table snap
status snap
read snap 0 2
write snap 0 512*78
write snap 5 512*78
status snap
remove snap
create snap 0 128 snapshot base cow PO 1
