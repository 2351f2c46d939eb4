# Pseudo-random commands over bare disks: snapshots of one origin in chunks of 1 to 16 sectors, written, spoiled, damaged and
# attached again, merges, stops.
# Drawn, and what must be printed was said, by the plain slow machine of `bench/tests/desk_rows`.
disk d0 62
disk d1 34
disk d2 496
disk d3 104
disk d4 56
disk d5 88
disk d6 112
create d30 0 62 snapshot-origin d0
write d30 0 512*00 512*01 512*02 512*03 512*04 512*05 512*06 512*07 512*08 512*09 512*0a 512*0b 512*0c 512*0d 512*0e 512*0f 512*10 512*11 512*12 512*13 512*14 512*15 512*16 512*17 512*18 512*19 512*1a 512*1b 512*1c 512*1d 512*1e 512*1f 512*20 512*21 512*22 512*23 512*24 512*25 512*26 512*27 512*28 512*29 512*2a 512*2b 512*2c 512*2d 512*2e 512*2f 512*30 512*31 512*32 512*33 512*34 512*35 512*36 512*37 512*38 512*39 512*3a 512*3b 512*3c 512*3d
create d31 0 34 snapshot-origin d1
write d31 0 512*00 512*01 512*02 512*03 512*04 512*05 512*06 512*07 512*08 512*09 512*0a 512*0b 512*0c 512*0d 512*0e 512*0f 512*10 512*11 512*12 512*13 512*14 512*15 512*16 512*17 512*18 512*19 512*1a 512*1b 512*1c 512*1d 512*1e 512*1f 512*20 512*21
create d40 0 62 snapshot d0 d2 P 16
create d41 0 34 snapshot d1 d3 P 8
create d42 0 62 snapshot d0 d4 P 4
create d43 0 34 snapshot d1 d5 P 4
create d44 0 62 snapshot d0 d6 P 16
create d9 0 24 snapshot-merge d0 d2 P 1
save d0 0 62
save d1 0 34
save d2 0 496
save d3 0 104
save d4 0 56
save d5 0 88
save d6 0 112
table d24
status nosuch
tick 1
write d30 17 512*a3 512*74 512*aa
write d30 39 512*be
remove d30
load d2 15 512*28 512*16 512*06 512*c4
remove d42
remove d24
remove d14
load d4 0 512*00
create d42 0 62 snapshot d0 d4 P 4
save d0 0 62
save d1 0 34
save d2 0 496
save d3 0 104
save d4 0 56
save d5 0 88
save d6 0 112
write d44 50 512*7b 512*a5 512*71 512*de
read d40 56 5
settle d31
merge d40
read d30 0 62
read d43 23 5
write d31 12 512*ff 512*f0 512*a9 512*98 512*75
finish d44
message d23 0 removebadblock 48
tick 1
write d10 10 512*cf 512*9b 512*a1
settle d30
status d30
tick 2
resume d30
settle d30
status d30
tick 0
resume d30
settle d30
status d30
tick 2
resume d30
finish d30
create d40 0 62 snapshot d0 d2 P 16
tick 2
write d31 52 512*b9 512*c0 512*92 512*6f 512*7e
resume d44
message d20 1 enable
save d0 0 62
save d1 0 34
save d2 0 496
save d3 0 104
save d4 0 56
save d5 0 88
save d6 0 112
load d5 14 512*7b 512*d2
write d30 46 512*03 512*7b 512*01 512*2c 512*48 512*b8
write d40 7 512*49 512*dc
write d43 8 512*57 512*e0 512*2a 512*93
status d40
save d5 11 2
read d43 15 4
merge d40
read d30 0 62
write d44 19 512*16 512*67 512*35 512*b7
write d30 40 512*d7 512*f3 512*b2 512*6d
write d30 57 512*8f 512*4a 512*b0 512*ae 512*e4
settle d30
status d30
tick 0
resume d30
settle d30
status d30
tick 0
resume d30
finish d30
create d40 0 62 snapshot d0 d2 P 16
save d0 0 62
save d1 0 34
save d2 0 496
save d3 0 104
save d4 0 56
save d5 0 88
save d6 0 112
resume d30
remove d44
remove d26
remove d16
load d6 0 1*53 1*6e 1*41 1*70 1*01 3*00 1*01 3*00 1*10 1*00 1*19 497*00
create d44 0 62 snapshot d0 d6 P 16
write d43 5 512*82 512*6a 512*23 512*13 512*b4 512*d7
status d49
create d43 0 34 snapshot d1 d5 P 4
tick 3
write d30 5 512*f2 512*d4 512*72 512*61 512*21
remove d41
remove d23
remove d13
load d3 3 20*00 1*09 491*00
create d41 0 34 snapshot d1 d3 P 8
save d0 0 62
save d1 0 34
save d2 0 496
save d3 0 104
save d4 0 56
save d5 0 88
save d6 0 112
status d43
write d30 50 512*01 512*d8 512*88
write d42 47 1024*69 512*63 512*d2 512*ee
read d42 31 5
disk d4 41
save d0 38 4
save d1 2 6
write d30 8 512*80 512*8a 512*7e
save d0 0 62
save d1 0 34
save d2 0 496
save d3 0 104
save d4 0 56
save d5 0 88
save d6 0 112
table d45
remove d42
remove d24
remove d14
load d4 0 1*53 1*6e 1*41 1*70 1*01 3*00 1*01 3*00 1*01 499*00
create d42 0 62 snapshot d0 d4 P 4
settle d43
disk d3 32
merge d41
read d31 0 34
settle d31
read d31 0 34
message d24 0 countbadblocks
write d30 21 512*6b 512*f9 512*0b 512*67 512*9b 512*77
settle d30
settle d31
status d31
tick 1
resume d31
settle d31
status d31
tick 1
resume d31
settle d31
status d31
tick 0
resume d31
finish d31
create d41 0 34 snapshot d1 d3 P 8
write d42 36 512*b8 512*1e 512*c8 512*1d
save d2 25 6
resume d40
save d0 0 62
save d1 0 34
save d2 0 496
save d3 0 104
save d4 0 56
save d5 0 88
save d6 0 112
merge d43
read d31 0 34
settle d31
read d31 0 34
write d31 9 512*03
tick 2
settle d31
status d31
tick 1
resume d31
finish d31
create d43 0 34 snapshot d1 d5 P 4
write d42 0 512*92
write d43 9 512*89 512*d6 512*9f
tick 3
write d40 41 512*1e 512*93 512*bd
remove d42
create d42 0 62 snapshot d0 d4 P 4
table d47
write d41 15 512*55 512*8b
save d0 0 62
save d1 0 34
save d2 0 496
save d3 0 104
save d4 0 56
save d5 0 88
save d6 0 112
write d40 9 512*2e 512*b4
table d20
remove d41
remove d23
remove d13
load d3 3 20*00 1*09 1*00 1*03 489*00
create d41 0 34 snapshot d1 d3 P 8
merge d41
write d44 10 512*c9 512*cd 512*a9 512*0a 512*a8
tick 1
status d41
remove d43
create d43 0 34 snapshot d1 d5 P 4
remove d43
create d43 0 34 snapshot d1 d5 P 4
save d0 0 62
save d1 0 34
save d2 0 496
save d3 0 104
save d4 0 56
save d5 0 88
save d6 0 112
write d30 22 512*59
write d40 44 512*79 512*89 512*27 512*4f 512*3f
write d44 4 512*22 512*ae 512*99 512*02
save d1 10 6
write d31 16 512*0c 512*dc 512*49 512*fe
remove d42
remove d24
remove d14
load d4 1 1*15 7*00 1*02 7*00 1*16 7*00 1*03 7*00 1*17 2*00 1*0e 4*00 1*04 7*00 1*18 7*00 1*05 7*00 1*19 7*00 1*06 7*00 1*1a 7*00 1*07 7*00 1*24 7*00 1*08 7*00 1*25 7*00 1*09 7*00 1*26 7*00 1*0a 7*00 1*27 7*00 1*0b 15*00 1*0c 343*00
create d42 0 62 snapshot d0 d4 P 4
read d31 16 4
settle d41
save d0 0 62
save d1 0 34
save d2 0 496
save d3 0 104
save d4 0 56
save d5 0 88
save d6 0 112
remove d43
create d43 0 34 snapshot d1 d5 P 4
remove d43
create d43 0 34 snapshot d1 d5 P 4
stop d31
create d31 0 34 snapshot-origin d1
create d40 0 62 snapshot d0 d2 P 16
create d41 0 34 snapshot d1 d3 P 8
create d42 0 62 snapshot d0 d4 P 4
tick 2
read d41 31 3
save d5 9 3
table d18
merge d41
read d31 0 34
settle d31
read d31 0 34
settle d31
status d31
tick 0
resume d31
settle d31
status d31
tick 1
resume d31
settle d31
status d31
tick 0
resume d31
finish d31
create d41 0 34 snapshot d1 d3 P 8
settle d44
save d0 0 62
save d1 0 34
save d2 0 496
save d3 0 104
save d4 0 56
save d5 0 88
save d6 0 112
finish d44
write d31 24 512*14 512*bc 512*6f 512*b0
read d31 28 6
write d15 3 512*b6 512*53 512*a4 512*be 512*0c 512*c3
resume d15
merge d43
finish d31
settle d30
status d30
tick 1
resume d30
finish d30
create d43 0 34 snapshot d1 d5 P 4
write d30 37 512*02 512*6b 512*e7 512*9e 512*77
write d30 49 512*61 512*69 512*7b 512*ab 512*49
save d0 0 62
save d1 0 34
save d2 0 496
save d3 0 104
save d4 0 56
save d5 0 88
save d6 0 112
remove d42
remove d24
remove d14
load d4 1 1*15 7*00 1*02 7*00 1*16 7*00 1*03 7*00 1*17 2*00 1*0e 3*00 1*18 1*04 7*00 1*18 7*00 1*05 7*00 1*19 7*00 1*06 7*00 1*1a 7*00 1*07 7*00 1*24 7*00 1*08 7*00 1*25 7*00 1*09 7*00 1*26 7*00 1*0a 7*00 1*27 7*00 1*0b 15*00 1*0c 343*00
create d42 0 62 snapshot d0 d4 P 4
read d42 5 6
stop d30
create d30 0 62 snapshot-origin d0
create d40 0 62 snapshot d0 d2 P 16
create d41 0 34 snapshot d1 d3 P 8
create d42 0 62 snapshot d0 d4 P 4
create d43 0 34 snapshot d1 d5 P 4
create d44 0 62 snapshot d0 d6 P 16
tick 2
message d23 0 queryblock 11
write d43 8 512*cd 512*44 512*b9 512*21
read d44 14 4
create d9 0 8 flakey d0 0 0 0
save d0 0 62
save d1 0 34
save d2 0 496
save d3 0 104
save d4 0 56
save d5 0 88
save d6 0 112
frobnicate d30
read d42 8 3
write d31 8 512*a4 512*ac 512*a9 512*c9
frobnicate d30
read d30 19 4
write d30 47 512*85 512*c0 512*87 512*50 512*18 512*7d
remove d42
remove d24
remove d14
load d4 0 512*00
create d42 0 62 snapshot d0 d4 P 4
merge d41
read d31 0 34
tick 2
write d30 45 512*be 512*b2 512*e3
merge d40
save d6 18 3
finish d31
read d30 20 1
settle d31
status d31
tick 0
resume d31
finish d31
create d41 0 34 snapshot d1 d3 P 8
save d0 0 62
save d1 0 34
save d2 0 496
save d3 0 104
save d4 0 56
save d5 0 88
save d6 0 112
settle d30
remove d42
remove d24
remove d14
load d4 2 1*00 1*12 510*00
create d42 0 62 snapshot d0 d4 P 4
finish d30
write d31 6 512*bc 512*6c 512*99 512*f8 1024*92
disk d14 27
write d44 0 512*09 512*56 512*60
write d44 9 512*05 512*c4 512*87 512*75 512*a1 512*3a
read d43 5 3
save d0 0 62
save d1 0 34
save d2 0 496
save d3 0 104
save d4 0 56
save d5 0 88
save d6 0 112
stop d31
create d31 0 34 snapshot-origin d1
create d40 0 62 snapshot d0 d2 P 16
create d41 0 34 snapshot d1 d3 P 8
create d42 0 62 snapshot d0 d4 P 4
create d43 0 34 snapshot d1 d5 P 4
merge d42
save d6 59 4
write d30 52 512*18 512*e8 512*94
write d42 12 512*14 512*07
write d44 4 512*2a 512*14 512*ae 512*e7 512*46 512*c8
settle d30
status d30
tick 0
resume d30
finish d30
create d42 0 62 snapshot d0 d4 P 4
write d40 47 512*60 512*41 512*26 512*e6 512*27 512*8b
merge d44
finish d31
write d30 14 512*d2
settle d30
status d30
tick 1
resume d30
finish d30
create d44 0 62 snapshot d0 d6 P 16
remove d44
remove d26
remove d16
load d6 0 512*00
create d44 0 62 snapshot d0 d6 P 16
read d31 10 4
message d21 0 enable
status d31
save d0 0 62
save d1 0 34
save d2 0 496
save d3 0 104
save d4 0 56
save d5 0 88
save d6 0 112
frobnicate d30
disk d1 32
merge d43
read d31 0 34
status d31
write d44 50 512*ed 512*f1 512*0d 512*b3 512*c5 512*78
save d42 4 1
create d30 0 62 snapshot-origin d0
settle d31
status d31
tick 0
resume d31
finish d31
create d43 0 34 snapshot d1 d5 P 4
create d42 0 62 snapshot d0 d4 P 4
resume d40
message d23 0 addbadblock 44
settle d44
read d31 17 1
save d0 0 62
save d1 0 34
save d2 0 496
save d3 0 104
save d4 0 56
save d5 0 88
save d6 0 112
status d40
read d31 6 2
merge d40
read d30 0 62
settle d30
read d30 0 62
write d44 26 512*7c
settle d30
status d30
tick 2
resume d30
settle d30
status d30
tick 0
resume d30
finish d30
create d40 0 62 snapshot d0 d2 P 16
write d30 14 512*9d 512*62
write d44 55 512*ed 512*d6 512*2e 512*53 512*b6
read d40 52 5
resume d44
remove d42
create d42 0 62 snapshot d0 d4 P 4
remove d42
create d42 0 62 snapshot d0 d4 P 4
save d0 0 62
save d1 0 34
save d2 0 496
save d3 0 104
save d4 0 56
save d5 0 88
save d6 0 112
read d40 51 6
write d31 11 512*5a 512*72
remove d40
tick 3
write d20 18 512*5d
message d24 0 addbadblock 27
create d30 0 62 snapshot-origin d0
read d30 9 6
save d0 0 62
save d1 0 34
save d2 0 496
save d3 0 104
save d4 0 56
save d5 0 88
save d6 0 112
status d42
tick 1
merge d43
settle d44
create d40 0 62 snapshot d0 d2 P 16
settle d41
resume d31
write d31 32 512*08
save d0 0 62
save d1 0 34
save d2 0 496
save d3 0 104
save d4 0 56
save d5 0 88
save d6 0 112
save d6 38 3
write d41 13 512*92 512*cf 512*22
save d4 38 4
disk d1 30
merge d42
write d30 21 512*ea 512*0d 512*d0 512*d6
read d30 32 5
settle d30
status d30
tick 1
resume d30
settle d30
status d30
tick 2
resume d30
finish d30
create d42 0 62 snapshot d0 d4 P 4
finish d41
disk d3 42
message d21 0 enable
save d0 0 62
save d1 0 34
save d2 0 496
save d3 0 104
save d4 0 56
save d5 0 88
save d6 0 112
create d9 0 24 snapshot d0 d2 P 3
read d31 0 4
write d41 9 512*cf 512*b3 512*3e 512*c0
merge d41
merge d40
merge d44
status d41
write d31 5 512*53 512*a3 512*41 512*91 512*02
settle d30
status d30
tick 2
resume d30
finish d30
create d44 0 62 snapshot d0 d6 P 16
save d20 10 4
message d26 0 addbadblock 25
save d0 0 62
save d1 0 34
save d2 0 496
save d3 0 104
save d4 0 56
save d5 0 88
save d6 0 112
read d31 9 1
message d23 0 addbadblock 5
remove d40
remove d22
remove d12
load d2 0 1*53 1*6e 1*41 1*70 1*01 1*00 1*27 1*00 1*01 3*00 1*10 499*00
create d40 0 62 snapshot d0 d2 P 16
message d25 0 addbadblock 41
message d23 0 addbadblock 4
write d43 8 512*2e 512*37 512*d2
message d24 0 enable
message d26 0 addbadblock 9
save d0 0 62
save d1 0 34
save d2 0 496
save d3 0 104
save d4 0 56
save d5 0 88
save d6 0 112
save d3 46 3
remove d44
remove d26
remove d16
load d6 0 1*53 1*6e 1*41 1*70 1*01 3*00 1*01 3*00 1*01 499*00
create d44 0 62 snapshot d0 d6 P 16
stop d31
create d31 0 34 snapshot-origin d1
create d40 0 62 snapshot d0 d2 P 16
create d41 0 34 snapshot d1 d3 P 8
create d42 0 62 snapshot d0 d4 P 4
create d43 0 34 snapshot d1 d5 P 4
create d44 0 62 snapshot d0 d6 P 16
table d36
remove d44
remove d26
remove d16
load d6 2 13*00 1*02 498*00
create d44 0 62 snapshot d0 d6 P 16
resume d40
finish d42
message d22 0 queryblock 38
save d0 0 62
save d1 0 34
save d2 0 496
save d3 0 104
save d4 0 56
save d5 0 88
save d6 0 112
merge d43
read d31 0 34
read d31 7 4
read d30 48 5
settle d31
status d31
tick 1
resume d31
settle d31
status d31
tick 0
resume d31
finish d31
create d43 0 34 snapshot d1 d5 P 4
write d30 16 512*89
merge d41
read d31 0 34
settle d31
read d31 0 34
read d30 8 2
finish d31
write d41 1 512*8f
settle d30
status d30
tick 0
resume d30
settle d30
status d30
tick 0
resume d30
settle d30
status d30
tick 0
resume d30
finish d30
create d41 0 34 snapshot d1 d3 P 8
load d6 59 512*f6 512*90 512*99 512*7c 512*e3
write d30 0 100*aa
tick 2
save d32 9 6
read d40 7 6
save d0 0 62
save d1 0 34
save d2 0 496
save d3 0 104
save d4 0 56
save d5 0 88
save d6 0 112
write d41 3 512*e2
message d20 1 enable
read d30 4 2
message d20 0 disable
write d31 2 512*ef 512*be 512*5a
write d5 8 512*b2 512*cd
save d6 44 5
write d31 16 512*96 512*18
save d0 0 62
save d1 0 34
save d2 0 496
save d3 0 104
save d4 0 56
save d5 0 88
save d6 0 112
table d29
settle d41
read d30 13 4
merge d41
read d44 30 2
table d10
save d2 59 1
remove d42
create d42 0 62 snapshot d0 d4 P 4
save d0 0 62
save d1 0 34
save d2 0 496
save d3 0 104
save d4 0 56
save d5 0 88
save d6 0 112
remove d41
remove d23
remove d13
load d3 3 8*00 1*20 11*00 1*09 1*00 1*03 489*00
create d41 0 34 snapshot d1 d3 P 8
write d30 0 100*aa
write d40 16 512*55 512*13 512*fc 512*fd
remove d41
create d41 0 34 snapshot d1 d3 P 8
write d31 32 512*98 512*22
read d31 20 1
read d41 25 1
write d31 27 512*ee 512*c8 512*6d
save d0 0 62
save d1 0 34
save d2 0 496
save d3 0 104
save d4 0 56
save d5 0 88
save d6 0 112
write d31 10 512*f1 512*d1 512*5b 512*1b
read d31 15 5
settle d42
table d46
create d44 0 62 snapshot d0 d6 P 16
write d42 12 512*1d 512*f7 512*05 512*ef 512*9e
create d44 0 62 snapshot d0 d6 P 16
remove d40
create d40 0 62 snapshot d0 d2 P 16
save d0 0 62
save d1 0 34
save d2 0 496
save d3 0 104
save d4 0 56
save d5 0 88
save d6 0 112
read d44 7 2
message d21 0 addbadblock 25
save d0 23 3
merge d41
read d31 0 34
settle d31
read d31 0 34
write d31 8 512*08 512*95 512*a5 512*58 512*42
read d40 18 6
write d29 4 512*6e 512*7b 512*c4
save d3 9 2
read d19 12 4
settle d31
status d31
tick 2
resume d31
finish d31
create d41 0 34 snapshot d1 d3 P 8
write d31 15 512*58 512*4c
write d42 2 512*d3 512*f3 512*b4
write d30 3 512*e6 512*e7 512*38 512*9d 512*df 512*4f
read d31 17 1
save d0 0 62
save d1 0 34
save d2 0 496
save d3 0 104
save d4 0 56
save d5 0 88
save d6 0 112
write d40 10 512*02 512*b8
read d41 22 4
message d26 0 clearbadblocks
status d43
stop d30
create d30 0 62 snapshot-origin d0
create d42 0 62 snapshot d0 d4 P 4
create d43 0 34 snapshot d1 d5 P 4
write d31 6 512*61 512*b6
table d8
