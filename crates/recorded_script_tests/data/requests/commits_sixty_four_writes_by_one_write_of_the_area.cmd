# Sixty-four writes in flight over new chunks are committed by one write of the area.
# The order of the events is that of docs/DESIGN.md, a volume as single events.
disk base 1024
disk cow 1024
create vol 0 1024 snapshot-origin base
write vol 0 524288*11
create snap 0 1024 snapshot base cow P 8
start vol write 0 512*aa
start vol write 8 512*aa
start vol write 16 512*aa
start vol write 24 512*aa
start vol write 32 512*aa
start vol write 40 512*aa
start vol write 48 512*aa
start vol write 56 512*aa
start vol write 64 512*aa
start vol write 72 512*aa
start vol write 80 512*aa
start vol write 88 512*aa
start vol write 96 512*aa
start vol write 104 512*aa
start vol write 112 512*aa
start vol write 120 512*aa
start vol write 128 512*aa
start vol write 136 512*aa
start vol write 144 512*aa
start vol write 152 512*aa
start vol write 160 512*aa
start vol write 168 512*aa
start vol write 176 512*aa
start vol write 184 512*aa
start vol write 192 512*aa
start vol write 200 512*aa
start vol write 208 512*aa
start vol write 216 512*aa
start vol write 224 512*aa
start vol write 232 512*aa
start vol write 240 512*aa
start vol write 248 512*aa
start vol write 256 512*aa
start vol write 264 512*aa
start vol write 272 512*aa
start vol write 280 512*aa
start vol write 288 512*aa
start vol write 296 512*aa
start vol write 304 512*aa
start vol write 312 512*aa
start vol write 320 512*aa
start vol write 328 512*aa
start vol write 336 512*aa
start vol write 344 512*aa
start vol write 352 512*aa
start vol write 360 512*aa
start vol write 368 512*aa
start vol write 376 512*aa
start vol write 384 512*aa
start vol write 392 512*aa
start vol write 400 512*aa
start vol write 408 512*aa
start vol write 416 512*aa
start vol write 424 512*aa
start vol write 432 512*aa
start vol write 440 512*aa
start vol write 448 512*aa
start vol write 456 512*aa
start vol write 464 512*aa
start vol write 472 512*aa
start vol write 480 512*aa
start vol write 488 512*aa
start vol write 496 512*aa
start vol write 504 512*aa
step vol copy-read 1
step vol copy-read 2
step vol copy-read 3
step vol copy-read 4
step vol copy-read 5
step vol copy-read 6
step vol copy-read 7
step vol copy-read 8
step vol copy-read 9
step vol copy-read 10
step vol copy-read 11
step vol copy-read 12
step vol copy-read 13
step vol copy-read 14
step vol copy-read 15
step vol copy-read 16
step vol copy-read 17
step vol copy-read 18
step vol copy-read 19
step vol copy-read 20
step vol copy-read 21
step vol copy-read 22
step vol copy-read 23
step vol copy-read 24
step vol copy-read 25
step vol copy-read 26
step vol copy-read 27
step vol copy-read 28
step vol copy-read 29
step vol copy-read 30
step vol copy-read 31
step vol copy-read 32
step vol copy-read 33
step vol copy-read 34
step vol copy-read 35
step vol copy-read 36
step vol copy-read 37
step vol copy-read 38
step vol copy-read 39
step vol copy-read 40
step vol copy-read 41
step vol copy-read 42
step vol copy-read 43
step vol copy-read 44
step vol copy-read 45
step vol copy-read 46
step vol copy-read 47
step vol copy-read 48
step vol copy-read 49
step vol copy-read 50
step vol copy-read 51
step vol copy-read 52
step vol copy-read 53
step vol copy-read 54
step vol copy-read 55
step vol copy-read 56
step vol copy-read 57
step vol copy-read 58
step vol copy-read 59
step vol copy-read 60
step vol copy-read 61
step vol copy-read 62
step vol copy-read 63
step vol copy-read 64
step vol copy-write 1
step vol copy-write 2
step vol copy-write 3
step vol copy-write 4
step vol copy-write 5
step vol copy-write 6
step vol copy-write 7
step vol copy-write 8
step vol copy-write 9
step vol copy-write 10
step vol copy-write 11
step vol copy-write 12
step vol copy-write 13
step vol copy-write 14
step vol copy-write 15
step vol copy-write 16
step vol copy-write 17
step vol copy-write 18
step vol copy-write 19
step vol copy-write 20
step vol copy-write 21
step vol copy-write 22
step vol copy-write 23
step vol copy-write 24
step vol copy-write 25
step vol copy-write 26
step vol copy-write 27
step vol copy-write 28
step vol copy-write 29
step vol copy-write 30
step vol copy-write 31
step vol copy-write 32
step vol copy-write 33
step vol copy-write 34
step vol copy-write 35
step vol copy-write 36
step vol copy-write 37
step vol copy-write 38
step vol copy-write 39
step vol copy-write 40
step vol copy-write 41
step vol copy-write 42
step vol copy-write 43
step vol copy-write 44
step vol copy-write 45
step vol copy-write 46
step vol copy-write 47
step vol copy-write 48
step vol copy-write 49
step vol copy-write 50
step vol copy-write 51
step vol copy-write 52
step vol copy-write 53
step vol copy-write 54
step vol copy-write 55
step vol copy-write 56
step vol copy-write 57
step vol copy-write 58
step vol copy-write 59
step vol copy-write 60
step vol copy-write 61
step vol copy-write 62
step vol copy-write 63
step vol copy-write 64
step vol flush-store snap
step vol write-area snap
step vol write-area snap
status snap
settle vol
