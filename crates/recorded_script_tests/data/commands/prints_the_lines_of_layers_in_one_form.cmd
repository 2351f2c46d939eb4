# Lines of layers are printed without leading zeros or a count of no features, the features in one order.
# The grammar of lines is this project's.
disk d1 128
disk d2 128
disk d3 128
disk d4 128
disk d5 128
disk d6 128
disk d7 128
disk d8 128
create a 0 64 flakey d1 0 1 1 1 error_writes
table a
create b 0 120 flakey d2 8 60 0
table b
create c 0 8 flakey d3 0 0 2147483647 2 error_reads drop_writes
table c
create d 0 8 flakey d4 0 1 1 2 error_reads error_writes
table d
create e 0 64 dust d5 0 512
table e
create f 0 64 dust d6 0 1073741824
table f
create g 0 16777216 error
table g
create h 0 8 flakey d7 0 02 1 0
table h
  create i  0  008 flakey d8 0 1 1 2 drop_writes error_reads 
  table   i 
