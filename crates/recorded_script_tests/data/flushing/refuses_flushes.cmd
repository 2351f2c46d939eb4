# A flush is refused as a read is, without its range; a snapshot that is being merged takes none, and a spoiled one neither.
# That a flush of a device makes what was written to it last is the block layer's rule; that it is asked for by a command is this project's.
disk base 128
disk cow 64
create vol 0 128 snapshot-origin base
write vol 0 65536*11
create snap 0 128 snapshot base cow P 1
flush
flush vol vol
flush Vol
flush nosuch
flush base
flush cow
create fl 0 128 error
flush fl
flush vol
flush snap
merge snap
flush snap
flush vol
settle vol
flush snap
finish vol
flush snap
disk c3 3
create s3 0 128 snapshot base c3 P 1
write vol 1 512*aa
flush s3
write vol 2 512*aa
flush s3
remove s3
disk c4 3
create s4 0 128 snapshot base c4 PO 1
write s4 1 512*aa
write s4 2 512*bb
flush s4
status s4
write s4 1 512*bb
