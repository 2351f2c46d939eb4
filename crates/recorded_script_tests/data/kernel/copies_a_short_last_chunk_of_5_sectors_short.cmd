# The one chunk of an origin of five sectors is copied as its five sectors; the rest of its place stays as it was.
# Status lines and raw bytes as recorded from the Linux kernel.
disk base 5
disk cow 64
create vol 0 5 snapshot-origin base
write vol 0 2560*11
load cow 16 24576*ee
create snap 0 5 snapshot base cow P 8
write vol 4 512*aa
status snap
save cow 16 8
save cow 24 8
