# Lines whose command, number of words, names or numbers are of another form; a comment begins at the line's first character.
# The grammar of lines is this project's.
begin
disk
disk d
disk d 8 9
disk D 8
disk _d 8
disk 9d 8
disk abcdefghijklmnopq 8
disk d 4294967296
disk d 00000000008
disk d +8
disk d 8	
disk d 8
Disk d 8
 # disk d 8
remove
remove a b
status
status a b
tick
tick x
tick 1 1
table
table Vol
table a b
