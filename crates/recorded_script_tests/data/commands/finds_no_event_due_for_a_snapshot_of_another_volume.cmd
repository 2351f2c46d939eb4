# An event of one volume that names a snapshot of another is not due.
# The grammar of lines is this project's.
disk base 128
disk cow 64
disk other 8
create vol 0 128 snapshot-origin base
create snap 0 128 snapshot base cow P 1
create vol2 0 8 snapshot-origin other
step vol2 write-area snap
step vol2 flush-store snap
