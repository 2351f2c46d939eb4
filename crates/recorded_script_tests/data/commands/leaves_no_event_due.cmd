# Commands leave no event due, whatever event is asked for.
# The grammar of lines is this project's.
disk base 128
disk cow 64
create vol 0 128 snapshot-origin base
create snap 0 128 snapshot base cow P 1
write vol 5 512*aa
settle vol
step vol issue 1
step vol copy-read 1
step vol copy-write 1
step vol publish 1
step vol zero-next snap
step vol flush-store snap
step vol write-area snap
step vol write-invalid snap
