# A backup reads a snapshot while two programs write the origin, all at once: three seats of one block, each on a thread of its own.
# A seat's lines are done in their order; those of different seats come in any. What each line answers here is the same in every order.
disk base 128
disk cow 64
create vol 0 128 snapshot-origin base
write vol 0 65536*11
create snap 0 128 snapshot base cow P 1

# The answers are printed behind `end`, by seat.
par
1 write vol 0 4096*aa
2 write vol 8 4096*bb
3 read snap 0 64
1 read vol 0 8
3 read snap 64 64
2 read vol 8 8
end

# Each of the sixteen chunks that were written was copied into the store first: they stand there behind the header and the area.
status snap
read vol 0 17
read snap 0 128
