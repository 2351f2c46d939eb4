# Lines of layers of another form, over a disk that is there and long enough: none makes a device.
# The grammar of lines is this project's.
disk e 128
create x 0 8 flakey e 0 0 0
create x 0 8 flakey D 0 1 1
create x 0 8 flakey e 0 2147483648 1
create x 0 8 flakey e 0 1 1 1
create x 0 8 flakey e 0 1 1 0 error_reads
create x 0 8 flakey e 0 1 1 1 corrupt_bio_byte
create x 0 8 flakey e 0 1 1 2 error_reads error_reads
create x 0 8 flakey e 0 1 1 2 drop_writes error_writes
create x 00 128 error
create x 0 128 linear e 0
create x 0 128
create x 0 64 dust e 00 512
create x 0 64 dust e 0 256
create x 0 64 dust e 0 1536
create x 0 64 dust e 0 2147483648
create x 0 64 error 0
create x 0 64	error
table x
