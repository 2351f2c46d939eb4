# A store of 34 sectors ends before its second area; the write that fills the first one spoils the snapshot.
# Status lines and raw bytes as recorded from the Linux kernel.
disk base 128
disk cow 34
create vol 0 128 snapshot-origin base
write vol 0 65536*11
create snap 0 128 snapshot base cow P 1
write vol 0 512*aa
write vol 1 512*aa
write vol 2 512*aa
write vol 3 512*aa
write vol 4 512*aa
write vol 5 512*aa
write vol 6 512*aa
write vol 7 512*aa
write vol 8 512*aa
write vol 9 512*aa
write vol 10 512*aa
write vol 11 512*aa
write vol 12 512*aa
write vol 13 512*aa
write vol 14 512*aa
write vol 15 512*aa
write vol 16 512*aa
write vol 17 512*aa
write vol 18 512*aa
write vol 19 512*aa
write vol 20 512*aa
write vol 21 512*aa
write vol 22 512*aa
write vol 23 512*aa
write vol 24 512*aa
write vol 25 512*aa
write vol 26 512*aa
write vol 27 512*aa
write vol 28 512*aa
write vol 29 512*aa
write vol 30 512*aa
status snap
write vol 31 512*aa
status snap
save cow 1 1
save cow 33 1
