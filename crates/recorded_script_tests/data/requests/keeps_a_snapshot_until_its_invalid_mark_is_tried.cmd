# A snapshot that was spoiled is not removed before its mark was tried: not before the mark is
# written, and not before the flush that follows it. The mark makes the header invalid.
# The order of the events is that of docs/DESIGN.md, a volume as single events.
disk base 128
disk cow 3
create vol 0 128 snapshot-origin base
write vol 0 65536*11
create snap 0 128 snapshot base cow P 1
write snap 0 512*77
start snap write 1 512*55
status snap
start snap read 1 1
save cow 0 1
remove snap
step vol flush-store snap
step vol write-invalid snap
save cow 0 1
step vol write-invalid snap
remove snap
step vol flush-store snap
step vol flush-store snap
step vol write-invalid snap
remove snap
