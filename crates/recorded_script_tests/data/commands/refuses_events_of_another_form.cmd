# Words that name no event; the volume and its snapshot are there.
# The grammar of lines is this project's.
disk base 128
disk cow 64
create vol 0 128 snapshot-origin base
create snap 0 128 snapshot base cow P 1
step
step vol
step vol issue
step vol issue x
step vol issue 1 2
step vol issue 4294967296
step vol write-area Snap
step vol write-area snap snap
step vol flush-store
step vol flush-store Snap
step vol flush-store snap 1
step vol flush-Store snap
step vol flush snap
step vol merge
step vol merge-group 1
step vol merge-read snap
step vol merge-Write
step Vol merge-group
step vol copy-read 00000000001
step vol publish
step vol Publish 1
