# A store of eight sectors is too small for chunks of eight sectors, and is left as it was.
# That such a store is left as it was is this project's own; the kernel writes its header before it fails.
disk base 128
disk cow 8
create vol 0 128 snapshot-origin base
write vol 0 65536*11
load cow 0 4*00 508*ee
load cow 1 3584*ee
create snap 0 128 snapshot base cow P 8
save cow 0 8
status snap
