# Table lines of another form; the number of features is looked at before the chunk size.
# The grammar of lines is this project's.
create
create o
create o 0 128
create o 00 128 snapshot-origin base
create o 1 128 snapshot-origin base
create o 0 128 snapshot-origin base 0
create o 0 128 snapshot-origin Base
create m 0 128 snapshot-merge base cow P 1
create m 0 128 snapshot-merge base cow P 3
create s 0 128 snapshot base cow N 8
create s 0 128 snapshot base cow p 8
create s 0 128 snapshot base cow P
create s 0 128 snapshot base cow P x
create s 0 128 snapshot base cow P 4294967296
create s 0 128 snapshot base cow P 3 1
create s 0 128 snapshot base cow P 3 00
create s 0 128 snapshot base cow P 3 0 0
create S 0 128 snapshot base cow P 3
create f 0 8 flakey base 0 0 0
create f 0 8 linear base 0
create d 0 8 dust base 1 512
create e 0 8 error 0
