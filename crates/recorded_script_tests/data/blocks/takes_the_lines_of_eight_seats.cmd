# Eight seats, whose lines stand in the text from the last to the first: answers come by seat, then in the order of the seat's lines.
# The words of a block are this project's.
disk base 128
disk cow 64
create vol 0 128 snapshot-origin base
write vol 0 512*01
write vol 1 512*02
write vol 2 512*03
write vol 3 512*04
write vol 4 512*05
write vol 5 512*06
write vol 6 512*07
write vol 7 512*08
create snap 0 128 snapshot base cow P 1
par
8 read vol 7 1
7 read vol 6 1
6 read vol 5 1
5 read vol 4 1
4 read vol 3 1
3 read vol 2 1
2 read vol 1 1
1 read vol 0 1
08 read snap 0 1
end
  par  
  8   merge snap 
02 write vol 4294967295 512*aa
1 read vol 0 0
  end 
finish vol
