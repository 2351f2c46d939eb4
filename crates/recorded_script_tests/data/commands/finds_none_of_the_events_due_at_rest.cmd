# Each event by its words: where nothing is in flight and no merge is begun, none is due.
# The grammar of lines is this project's.
disk base 128
disk cow 64
create vol 0 128 snapshot-origin base
create snap 0 128 snapshot base cow P 1
step vol issue 2
step vol copy-read 1
step vol copy-write 01
step vol publish 4294967295
step vol zero-next snap
step vol flush-store snap
step vol write-area snap
step vol write-invalid snap
step vol merge-group
step vol merge-area-read
step vol merge-read
step vol merge-write
step vol merge-flush
step vol merge-commit
 step  vol merge-release 
