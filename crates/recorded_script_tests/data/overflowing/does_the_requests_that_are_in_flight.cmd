# Requests that were in flight when the store overflowed are done, writes too; each write after it is refused, reads go on. A
# write of the origin to a chunk that the store has spoils nothing.
# By the admin-guide page on snapshots; the order of the events is that of docs/DESIGN.md, a volume as single events.
disk base 128
disk cow 4
create vol 0 128 snapshot-origin base
write vol 0 65536*11
create snap 0 128 snapshot base cow PO 1
start snap write 0 512*71
start snap read 0 1
start snap write 1 512*72
start snap write 2 512*73
status snap
start snap write 0 512*74
write snap 5 512*75
start snap read 9 1
settle vol
status snap
read snap 0 3
write snap 0 512*76
write vol 0 512*aa
status snap
read snap 0 1
read vol 0 1
