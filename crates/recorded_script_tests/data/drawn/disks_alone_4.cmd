# Pseudo-random commands over bare disks: snapshots written, spoiled, damaged and attached again, merges, stops.
# Drawn, and what must be printed was said, by the plain slow machine of `bench/tests/desk_rows`.
disk d0 30
disk d1 30
disk d2 47
disk d3 33
disk d4 22
create d30 0 30 snapshot-origin d0
write d30 0 512*00 512*01 512*02 512*03 512*04 512*05 512*06 512*07 512*08 512*09 512*0a 512*0b 512*0c 512*0d 512*0e 512*0f 512*10 512*11 512*12 512*13 512*14 512*15 512*16 512*17 512*18 512*19 512*1a 512*1b 512*1c 512*1d
create d40 0 30 snapshot d0 d2 P 1
create d41 0 30 snapshot d0 d3 P 1
create d42 0 30 snapshot d0 d4 P 1
write d30 6 512*97
save d0 0 30
save d1 0 30
save d2 0 47
save d3 0 33
save d4 0 22
create d30 0 30 snapshot-origin d0
read d30 22 1
read d30 8 5
remove d30
remove d40
remove d22
remove d12
load d2 0 1*53 1*6e 1*41 1*70 1*01 3*00 1*01 3*00 1*01 499*00
create d40 0 30 snapshot d0 d2 P 1
disk d2 30
write d30 12 512*c9 512*12
save d3 13 1
save d0 0 30
save d1 0 30
save d2 0 47
save d3 0 33
save d4 0 22
merge d40
read d30 0 30
settle d30
read d30 0 30
status d40
read d30 15 5
write d41 9 512*69 512*ab 512*62 512*f7
status d42
settle d30
status d30
tick 0
resume d30
finish d30
create d40 0 30 snapshot d0 d2 P 1
remove d40
create d40 0 30 snapshot d0 d2 P 1
write d30 17 512*9b 512*d0
read d30 5 4
settle d30
disk d4 24
remove d42
create d42 0 30 snapshot d0 d4 P 1
remove d42
create d42 0 30 snapshot d0 d4 P 1
write d30 1 512*fb 512*3d 512*54
save d0 0 30
save d1 0 30
save d2 0 47
save d3 0 33
save d4 0 22
write d30 1 512*36 512*47 512*d1 512*30 512*90 512*95
write d30 12 512*1b 512*36 512*26 512*50 512*a5
disk d1 25
settle d41
save d4 12 3
merge d40
remove d42
write d30 10 512*81 512*c3 512*04 512*81 512*5e
save d0 0 30
save d1 0 30
save d2 0 47
save d3 0 33
save d4 0 22
merge d40
read d30 0 30
settle d30
read d30 0 30
read d40 1 1
settle d30
status d30
tick 1
resume d30
settle d30
status d30
tick 2
resume d30
settle d30
status d30
tick 0
resume d30
finish d30
create d40 0 30 snapshot d0 d2 P 1
stop d31
remove d40
remove d22
remove d12
load d2 0 1*53 1*6e 1*41 1*70 1*01 3*00 1*01 3*00 1*01 499*00
create d40 0 30 snapshot d0 d2 P 1
settle d30
finish d30
merge d41
read d30 0 30
settle d30
read d30 0 30
settle d30
status d30
tick 2
resume d30
finish d30
create d41 0 30 snapshot d0 d3 P 1
read d41 18 2
write d40 12 512*cf 512*9c
save d0 0 30
save d1 0 30
save d2 0 47
save d3 0 33
save d4 0 22
status d30
write d30 5 512*db
read d41 9 1
read d30 8 6
settle d30
remove d42
remove d24
remove d14
load d4 2 8*06 1*10 503*06
create d42 0 30 snapshot d0 d4 P 1
merge d41
read d30 0 30
write d40 8 512*29 512*64
save d3 23 4
message d24 0 addbadblock 36
write d30 6 512*5a 512*76 512*fa
write d30 4 512*3d
settle d41
read d41 25 4
settle d30
status d30
tick 0
resume d30
finish d30
create d41 0 30 snapshot d0 d3 P 1
finish d42
save d0 0 30
save d1 0 30
save d2 0 47
save d3 0 33
save d4 0 22
merge d40
save d0 13 2
read d9 13 2
message d21 0 enable
resume d41
write d30 0 100*aa
message d22 0 addbadblock 16
write d30 9 512*18
save d0 0 30
save d1 0 30
save d2 0 47
save d3 0 33
save d4 0 22
remove d30
write d41 15 512*8d 512*0f 512*f0
tick 2
stop d30
create d30 0 30 snapshot-origin d0
create d40 0 30 snapshot d0 d2 P 1
create d41 0 30 snapshot d0 d3 P 1
create d42 0 30 snapshot d0 d4 P 1
merge d40
read d30 0 30
write d42 9 512*01 512*97 512*08 512*a7 512*cb 512*c0
remove d41
merge d41
settle d30
settle d30
status d30
tick 0
resume d30
settle d30
status d30
tick 2
resume d30
finish d30
create d40 0 30 snapshot d0 d2 P 1
create d9 0 24 snapshot-merge d0 d2 P 1
remove d42
remove d24
remove d14
load d4 0 1*53 1*6e 1*41 1*70 1*01 3*00 1*01 1*19 2*00 1*01 499*00
create d42 0 30 snapshot d0 d4 P 1
disk d1 37
save d0 0 30
save d1 0 30
save d2 0 47
save d3 0 33
save d4 0 22
save d1 8 2
write d8 13 512*20 512*df 512*63
status d40
message d20 0 enable
write d30 8 512*b8 512*cc 512*af 512*01 512*e3 512*83
message d21 0 countbadblocks
write d41 50 512*7b 512*ca 512*66 512*05 512*cd
save d1 2 4
save d0 0 30
save d1 0 30
save d2 0 47
save d3 0 33
save d4 0 22
remove d41
create d41 0 30 snapshot d0 d3 P 1
read d30 45 2
finish d30
status d41
write d30 14 512*a5 512*c9 512*c4 512*bc 512*e0 512*75
settle d30
write d40 5 512*6d 512*00 512*d6 512*67 512*f1
read d5 3 4
save d0 0 30
save d1 0 30
save d2 0 47
save d3 0 33
save d4 0 22
finish d17
resume d30
resume d30
settle d41
tick 1
remove d40
create d40 0 30 snapshot d0 d2 P 1
read d30 2 1
write d28 21 512*c9 512*07 512*a1
save d0 0 30
save d1 0 30
save d2 0 47
save d3 0 33
save d4 0 22
resume d30
write d30 13 512*1b 512*e9 512*78 512*48 512*8c
save d0 9 2
write d40 0 512*c0 512*d3 512*1e 512*4c
write d42 4 512*5e 512*19 512*48 512*39 512*e3
merge d42
resume d30
merge d41
save d0 0 30
save d1 0 30
save d2 0 47
save d3 0 33
save d4 0 22
write d30 7 512*05 512*f8 512*1f 512*7f 512*32
remove d40
remove d22
remove d12
load d2 2 43*67 1*21 468*67
create d40 0 30 snapshot d0 d2 P 1
load d4 3 512*91 512*41 512*02 512*89 512*e4 512*d2
disk d0 38
tick 1
save d3 1 4
save d47 2 6
write d40 8 512*90 512*4b 512*a8 512*cd 512*b6
save d0 0 30
save d1 0 30
save d2 0 47
save d3 0 33
save d4 0 22
write d30 5 512*b4 512*f4 512*23 512*e8 512*1e 512*f4
read d30 13 2
message d20 1 enable
read d30 7 2
disk d4 36
remove d42
create d42 0 30 snapshot d0 d4 P 1
tick 3
status d30
save d0 0 30
save d1 0 30
save d2 0 47
save d3 0 33
save d4 0 22
tick 3
message d20 0 removebadblock 46
remove d40
read d41 13 1
resume d41
write d41 9 512*ae 512*70 512*f7
remove d41
create d41 0 30 snapshot d0 d3 P 1
settle d40
save d0 0 30
save d1 0 30
save d2 0 47
save d3 0 33
save d4 0 22
message d22 0 addbadblock 37
read d30 11 5
finish d30
finish d42
read d40 4 5
read d30 4 6
tick 3
message d20 0 addbadblock 21
save d0 0 30
save d1 0 30
save d2 0 47
save d3 0 33
save d4 0 22
write d30 14 512*56 512*15 512*a3 512*b5
merge d40
tick 2
create d40 0 30 snapshot d0 d2 P 1
settle d30
status d30
tick 1
resume d30
settle d30
status d30
tick 0
resume d30
finish d30
create d40 0 30 snapshot d0 d2 P 1
write d40 26 512*f6 512*9c 512*a7
read d42 0 5
write d43 9 512*e1 512*db 512*cc 512*ee
read d30 4 5
message d8 0 addbadblock 32
write d30 11 512*3d 512*55
save d0 0 30
save d1 0 30
save d2 0 47
save d3 0 33
save d4 0 22
read d42 15 6
settle d42
save d3 28 2
write d41 6 512*02 512*18 512*cd 512*70 512*4c 512*ca
write d41 14 512*5d 512*ee 512*b7 512*d1 512*d7 512*5b
save d2 36 2
settle d30
remove d40
create d40 0 30 snapshot d0 d2 P 1
save d0 0 30
save d1 0 30
save d2 0 47
save d3 0 33
save d4 0 22
read d40 5 5
write d30 14 512*68 512*2e 512*de 512*48 512*7b
message d21 0 clearbadblocks
resume d41
read d30 1 4
finish d40
tick 1
write d41 15 512*df 512*b3
save d0 0 30
save d1 0 30
save d2 0 47
save d3 0 33
save d4 0 22
message d24 0 countbadblocks
write d41 11 512*92 512*95 512*5a 512*a3
tick 1x
read d30 12 2
stop d31
create d40 0 30 snapshot d0 d2 P 1
create d41 0 30 snapshot d0 d3 P 1
create d42 0 30 snapshot d0 d4 P 1
status d40
merge d42
read d30 16 5
save d0 0 30
save d1 0 30
save d2 0 47
save d3 0 33
save d4 0 22
remove d42
create d42 0 30 snapshot d0 d4 P 1
read d40 1 3
settle d30
write d30 9 512*94 512*ac 512*6a 512*67
remove d41
remove d23
remove d13
load d3 2 15*1e 1*26 496*1e
create d41 0 30 snapshot d0 d3 P 1
write d30 6 512*a0 512*b3 512*f5 512*b7
table d22
message d20 0 countbadblocks
save d0 0 30
save d1 0 30
save d2 0 47
save d3 0 33
save d4 0 22
write d42 11 512*c4 512*06 512*38 512*08 512*e3
message d20 0 enable
tick 1
read d40 4 5
remove d42
create d42 0 30 snapshot d0 d4 P 1
tick 1
message d22 0 enable
write d30 23 512*7e 512*0c 512*2a
save d0 0 30
save d1 0 30
save d2 0 47
save d3 0 33
save d4 0 22
resume d30
stop d30
create d30 0 30 snapshot-origin d0
create d40 0 30 snapshot d0 d2 P 1
create d42 0 30 snapshot d0 d4 P 1
merge d42
disk d2 23
write d30 1 512*c1
read d30 8 2
write d30 0 512*11
settle d30
status d30
tick 0
resume d30
finish d30
create d42 0 30 snapshot d0 d4 P 1
write d42 18 512*05 512*46 512*68 512*33 512*20 512*bb
table d40
stop d30
create d30 0 30 snapshot-origin d0
create d40 0 30 snapshot d0 d2 P 1
create d42 0 30 snapshot d0 d4 P 1
stop d31
create d40 0 30 snapshot d0 d2 P 1
create d41 0 30 snapshot d0 d3 P 1
create d42 0 30 snapshot d0 d4 P 1
read d30 3 5
save d0 0 30
save d1 0 30
save d2 0 47
save d3 0 33
save d4 0 22
write d40 15 512*bb 512*14 512*bc
table d3
message d24 0 removebadblock 39
status d30
read d40 9 2
settle d41
save d1 5 1
message d20 0 clearbadblocks
save d0 0 30
save d1 0 30
save d2 0 47
save d3 0 33
save d4 0 22
write d30 6 512*ca 512*c3 512*27 512*04 512*6c
write d42 14 512*8e 512*1c 512*b9
read d30 17 2
stop d31
create d40 0 30 snapshot d0 d2 P 1
create d41 0 30 snapshot d0 d3 P 1
create d42 0 30 snapshot d0 d4 P 1
write d40 9 512*c2
resume d30
write d30 16 512*76 512*bf
write d40 9 512*b7 512*db 512*28 512*55
save d0 0 30
save d1 0 30
save d2 0 47
save d3 0 33
save d4 0 22
disk d4 48
write d41 18 512*b7 512*12 512*f3 512*4f 512*d6 512*7a
write d42 16 512*bb 512*25 512*90 512*00 512*2a 512*95
save d1 24 2
write d41 10 512*24 512*5f 512*49 512*2a
write d42 5 512*11 512*69 512*cf 512*b9 512*21
disk d3 36
merge d40
read d30 0 30
settle d30
status d30
tick 0
resume d30
settle d30
status d30
tick 0
resume d30
settle d30
status d30
tick 2
resume d30
finish d30
create d40 0 30 snapshot d0 d2 P 1
save d0 0 30
save d1 0 30
save d2 0 47
save d3 0 33
save d4 0 22
remove d42
create d42 0 30 snapshot d0 d4 P 1
remove d42
create d42 0 30 snapshot d0 d4 P 1
resume d30
write d40 20 512*bf 512*38 512*15 512*72
write d42 17 512*e9
remove d41
create d41 0 30 snapshot d0 d3 P 1
remove d41
remove d23
remove d13
load d3 1 1*09 7*00 1*02 7*00 1*0a 7*00 1*03 7*00 1*0b 3*00 1*20 3*00 1*04 7*00 1*0c 7*00 1*05 7*00 1*06 7*00 1*06 7*00 1*07 7*00 1*07 7*00 1*08 7*00 1*08 7*00 1*17 7*00 1*09 7*00 1*18 7*00 1*0a 7*00 1*19 7*00 1*0b 7*00 1*10 7*00 1*0c 7*00 1*11 7*00 1*0d 7*00 1*12 7*00 1*0e 7*00 1*13 7*00 1*0f 7*00 1*14 7*00 1*10 7*00 1*15 7*00 1*11 7*00 1*16 7*00 1*12 7*00 1*0d 7*00 1*13 7*00 1*1c 7*00 1*14 7*00 1*1b 7*00 1*15 7*00 1*1a 7*00 1*16 7*00 1*03 7*00 1*17 7*00 1*02 7*00 1*18 7*00 1*01 7*00 1*19 15*00 1*1a 7*00 1*05 7*00 1*1b 7*00 1*0f 7*00 1*1c 7*00 1*0e 7*00 1*1d 71*00
create d41 0 30 snapshot d0 d3 P 1
stop d31
create d40 0 30 snapshot d0 d2 P 1
create d41 0 30 snapshot d0 d3 P 1
create d42 0 30 snapshot d0 d4 P 1
save d1 28 1
read d30 4 5
save d0 0 30
save d1 0 30
save d2 0 47
save d3 0 33
save d4 0 22
remove d42
create d42 0 30 snapshot d0 d4 P 1
write d41 8 512*bd 512*c9 512*96 512*95 512*83 512*fa
remove d41
create d41 0 30 snapshot d0 d3 P 1
settle d30
merge d41
disk d4 42
read d30 15 5
message d24 0 enable
create d9 0 24 snapshot-merge d0 d2 P 1
write d40 6 512*5c 512*b7
write d42 3 512*90 512*e9 512*ab 512*0e 512*ef
settle d30
status d30
tick 0
resume d30
finish d30
create d41 0 30 snapshot d0 d3 P 1
resume d30
read d30 16 2
write d30 9 512*35 512*5d
save d0 0 30
save d1 0 30
save d2 0 47
save d3 0 33
save d4 0 22
tick 3
read d40 11 4
finish d30
merge d42
frobnicate d30
write d30 8 512*67 512*1a 512*b9 512*ef 512*d7
write d30 17 512*bf 512*db
write d30 3 512*5d 512*a8 512*4a
settle d30
status d30
tick 1
resume d30
settle d30
status d30
tick 1
resume d30
finish d30
create d42 0 30 snapshot d0 d4 P 1
write d42 4 512*1d 512*23
tick 1
resume d42
write d30 0 512*60 512*4c 512*5f 512*ad 512*b9
save d0 0 30
save d1 0 30
save d2 0 47
save d3 0 33
save d4 0 22
merge d40
read d30 0 30
settle d30
read d30 0 30
remove d42
message d20 0 addbadblock 18
read d30 13 2
table d20
finish d42
settle d30
status d30
tick 2
resume d30
settle d30
status d30
tick 2
resume d30
settle d30
status d30
tick 0
resume d30
finish d30
create d40 0 30 snapshot d0 d2 P 1
remove d41
create d41 0 30 snapshot d0 d3 P 1
remove d41
remove d23
remove d13
load d3 3 14*24 1*1e 497*24
create d41 0 30 snapshot d0 d3 P 1
read d30 18 4
tick 1
write d30 4 512*bb 512*1c 512*68 512*59 512*95 512*2b
write d41 16 512*0a
load d4 4 512*d9
write d30 3 512*6c 512*66
save d0 0 30
save d1 0 30
save d2 0 47
save d3 0 33
save d4 0 22
remove d41
create d41 0 30 snapshot d0 d3 P 1
remove d41
create d41 0 30 snapshot d0 d3 P 1
read d30 1 2
finish d41
write d30 24 512*08
read d30 8 1
read d30 12 3
write d30 1 512*47 512*87 512*dd
tick 1
save d0 0 30
save d1 0 30
save d2 0 47
save d3 0 33
save d4 0 22
write d41 10 512*70 512*7a
remove d42
remove d24
remove d14
load d4 0 1*53 1*6e 1*41 1*70 1*01 3*00 1*01 1*19 2*00 1*01 17*00 1*1b 481*00
create d42 0 30 snapshot d0 d4 P 1
remove d40
remove d22
remove d12
load d2 0 1*53 1*6e 1*41 1*70 1*01 3*00 1*01 3*00 1*01 499*00
create d40 0 30 snapshot d0 d2 P 1
merge d42
read d30 22 3
read d40 1 6
settle d30
status d30
tick 0
resume d30
finish d30
create d42 0 30 snapshot d0 d4 P 1
create d30 0 30 snapshot-origin d0
write d30 12 512*70 512*94
write d30 7 512*37 512*a3 512*7e 512*57 512*08
settle d40
save d0 0 30
save d1 0 30
save d2 0 47
save d3 0 33
save d4 0 22
write d30 4 512*05 512*50 512*76 512*61 512*8b 512*ba
tick 1
load d1 1 512*86 512*8d
merge d42
status d30
settle d30
status d30
tick 0
resume d30
settle d30
status d30
tick 1
resume d30
finish d30
create d42 0 30 snapshot d0 d4 P 1
remove d40
create d40 0 30 snapshot d0 d2 P 1
remove d40
create d40 0 30 snapshot d0 d2 P 1
write d30 1 512*4a 512*25 512*b2
merge d40
read d30 0 30
settle d30
read d30 0 30
finish d30
settle d30
status d30
tick 2
resume d30
settle d30
status d30
tick 0
resume d30
finish d30
create d40 0 30 snapshot d0 d2 P 1
remove d42
create d42 0 30 snapshot d0 d4 P 1
remove d42
remove d24
remove d14
load d4 0 1*53 1*6e 1*41 1*70 1*01 3*00 1*01 1*19 2*00 1*01 17*00 1*1b 7*00 1*1d 473*00
create d42 0 30 snapshot d0 d4 P 1
save d0 0 30
save d1 0 30
save d2 0 47
save d3 0 33
save d4 0 22
remove d41
status d41
write d30 39 512*5f
remove d41
create d41 0 30 snapshot d0 d3 P 1
remove d41
remove d23
remove d13
load d3 0 512*00
create d41 0 30 snapshot d0 d3 P 1
write d30 13 512*f8 512*0d 512*9d 512*45 512*a3
merge d42
create d41 0 30 snapshot d0 d3 P 1
write d30 12 512*75 512*f4 512*b8
save d0 0 30
save d1 0 30
save d2 0 47
save d3 0 33
save d4 0 22
read d30 25 2
tick 1
tick 3
resume d42
read d42 1 6
merge d40
read d30 0 30
write d30 7 512*10 512*d7 512*05 512*23 512*17 512*9d
read d30 17 2
write d30 6 512*ca 512*29 512*8b 512*6e
table d18
write d30 24 512*9d 512*b0
settle d30
status d30
tick 1
resume d30
finish d30
create d40 0 30 snapshot d0 d2 P 1
read d30 9 1
read d30 57 1
save d0 0 30
save d1 0 30
save d2 0 47
save d3 0 33
save d4 0 22
read d40 53 5
remove d42
create d42 0 30 snapshot d0 d4 P 1
remove d42
remove d24
remove d14
load d4 3 8*91 1*21 503*91
create d42 0 30 snapshot d0 d4 P 1
remove d40
create d40 0 30 snapshot d0 d2 P 1
write d30 21 512*e6 512*c5 512*8e 512*31 512*0e 512*66
write d30 24 512*eb 512*f4 512*5b 512*cb 512*d6
merge d41
read d30 0 30
settle d30
read d30 0 30
read d30 3 5
message d24 0 enable
message d21 0 enable
write d30 4 512*cd 512*99
message d24 0 enable
write d30 10 512*5f 512*d7 512*95 512*6c
write d40 27 512*cb 512*3b
settle d30
status d30
tick 0
resume d30
finish d30
create d41 0 30 snapshot d0 d3 P 1
status d42
status d30
save d0 0 30
save d1 0 30
save d2 0 47
save d3 0 33
save d4 0 22
remove d41
create d41 0 30 snapshot d0 d3 P 1
read d30 23 3
settle d23
read d30 10 1
write d30 9 512*f0 512*39 512*c8 512*7d 512*41 512*3f
message d21 0 enable
finish d30
create d41 0 30 snapshot d0 d3 P 1
save d0 0 30
save d1 0 30
save d2 0 47
save d3 0 33
save d4 0 22
message d20 0 queryblock 43
read d42 10 5
write d42 7 512*0f 512*60 512*6f 512*b5
read d40 17 1
load d1 17 512*3b 512*f9 512*45
message d22 0 removebadblock 36
stop d30
create d30 0 30 snapshot-origin d0
create d40 0 30 snapshot d0 d2 P 1
create d42 0 30 snapshot d0 d4 P 1
merge d41
tick 2
disk d3 42
settle d41
settle d30
status d30
tick 0
resume d30
settle d30
status d30
tick 1
resume d30
finish d30
create d41 0 30 snapshot d0 d3 P 1
save d0 0 30
save d1 0 30
save d2 0 47
save d3 0 33
save d4 0 22
read d30 4 1
remove d42
remove d24
remove d14
load d4 0 512*00
create d42 0 30 snapshot d0 d4 P 1
write d41 15 512*96 512*ba
