disk base 128
disk cow 64
create vol 0 128 snapshot-origin base
write vol 0 65536*11
create snap 0 128 snapshot base cow P 1
write vol 5 512*aa
read vol 5 1
read snap 5 1
status snap
save cow 1 1
save cow 2 1
read vol 128 1
# With one worker the copy that is held would hold the other seat's, and the gate would end at its limit.
disk base2 128
disk cow2 64
create vol2 0 128 snapshot-origin base2
write vol2 0 65536*11
create snap2 0 128 snapshot base2 cow2 P 1
par hold 1
1 write vol 1 512*aa
1 read snap 64 1
2 write vol2 0 512*aa
2 read snap2 64 1
end
