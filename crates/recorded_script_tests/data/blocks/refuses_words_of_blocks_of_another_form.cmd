# Words that open no block, and lines that make one be refused whole: the write beside them is not done.
# The words of a block are this project's.
disk base 128
disk cow 64
create vol 0 128 snapshot-origin base
write vol 0 512*01
write vol 1 512*02
write vol 2 512*03
write vol 3 512*04
write vol 4 512*05
write vol 5 512*06
write vol 6 512*07
write vol 7 512*08
create snap 0 128 snapshot base cow P 1
par x
par hold
par hold x
par hold 00000000009
par hold 4294967296
par hold 1 2
Par
1 par
parity
par	
1 read vol 0 1
par
1 write vol 9 512*77
9 read vol 0 1
end
par
1 write vol 9 512*77
0 read vol 0 1
end
par
1 write vol 9 512*77
read vol 0 1
end
par
1 write vol 9 512*77
1
end
par
1 write vol 9 512*77
1 # read
end
par
1 write vol 9 512*77
1 read vol 0
end
par
1 write vol 9 512*77
1 read Vol 0 0
end
par
1 write vol 9 512*77
1 save d 0 0
end
par
1 write vol 9 512*77
1 status vol
end
par
1 write vol 9 512*77
1 create s 0 8 snapshot a b P 3
end
par
1 write vol 9 512*77
par
end
par
1 write vol 9 512*77
1 par
end
par
1 write vol 9 512*77
end 1
end
par
1 write vol 9 512*77
1 end
end
par
1 merge snap
x
2 write vol 9 512*77
end
read vol 9 1
status vol
