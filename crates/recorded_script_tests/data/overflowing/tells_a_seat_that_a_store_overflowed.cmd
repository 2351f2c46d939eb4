# A seat's write is refused as a command's is. A seat's write of the origin spoils the snapshot.
# By the admin-guide page on snapshots; the commands are this project's.
disk base 128
disk cow 4
create vol 0 128 snapshot-origin base
write vol 0 65536*11
create snap 0 128 snapshot base cow PO 1
par
1 write snap 0 512*77
1 write snap 1 512*78
1 write snap 2 512*79
1 read snap 0 1
1 write snap 0 512*7a
2 read vol 9 1
end
status snap
write snap 0 512*55
par
1 write vol 50 512*aa
2 read vol 9 1
end
status snap
