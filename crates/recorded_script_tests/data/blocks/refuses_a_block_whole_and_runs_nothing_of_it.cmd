disk base 128
disk cow 64
create vol 0 128 snapshot-origin base
write vol 0 65536*11
create snap 0 128 snapshot base cow P 1
# another form opens none
par x
end
par hold
par hold 4294967296
# none of its lines
par
end
# a line of another form, after one that would write
par
1 write vol 0 512*aa
1 save base 0 1
end
par
1 write vol 0 512*aa
par
end
# a device of another kind comes before a name that is not there
par
1 write vol 0 512*aa
2 read nosuch 0 1
3 read base 0 1
end
par
1 write vol 0 512*aa
2 merge vol
end
# a name that is not there comes before a volume with something left to do
start vol read 64 1
par
1 write vol 0 512*aa
2 read nosuch 0 1
end
par
1 write vol 0 512*aa
end
settle vol
read vol 0 1
save base 0 1
status snap
# sectors that are not there are the line's own answer
par
1 read vol 0 0
1 write vol 128 512*aa
2 read vol 127 2
3 read snap 0 1
end
