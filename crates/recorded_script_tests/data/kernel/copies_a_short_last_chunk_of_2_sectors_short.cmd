# The last chunk of an origin of 130 sectors is copied as its two sectors; the rest of its place stays as it was.
# Status lines and raw bytes as recorded from the Linux kernel.
disk base 130
disk cow 128
create vol 0 130 snapshot-origin base
write vol 0 66560*11
load cow 16 57344*ee
create snap 0 130 snapshot base cow P 8
write vol 129 512*aa
status snap
save cow 16 8
save cow 24 8
