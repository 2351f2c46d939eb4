# No line of this block reads, so that the copy that is held goes on after its turns.
# The words of a block are this project's.
disk base 128
disk cow 64
create vol 0 128 snapshot-origin base
write vol 0 65536*11
create snap 0 128 snapshot base cow P 1
par hold 1
1 write vol 0 512*aa
end
read vol 0 1
read snap 0 1
