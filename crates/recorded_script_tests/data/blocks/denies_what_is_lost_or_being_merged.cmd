# What a seat is denied: all of a snapshot that was lost, all of one that is being merged, and a second merge.
#
# The small store has room for one saved chunk, and the write saves two: its snapshot is Invalid.
disk base 128
disk small 24
disk cow 64
create vol 0 128 snapshot-origin base
write vol 0 65536*11
create lost 0 128 snapshot base small P 8
create snap 0 128 snapshot base cow P 8
write snap 5 512*aa
write vol 0 8192*22
status lost
par
1 read lost 0 1
1 write lost 0 512*33
2 merge lost
3 read snap 5 1
end

# From the merge's beginning on its snapshot takes no request, and the origin shows what it showed.
merge snap
par
1 read snap 5 1
1 write snap 5 512*44
2 merge snap
3 merge lost
4 read vol 5 1
end

# The block's end does no event of a merge: its two pairs are left, in the places behind the header and the area.
status vol
