# Pseudo-random commands over bare disks: snapshots written, spoiled, damaged and attached again, merges, stops.
# Drawn, and what must be printed was said, by the plain slow machine of `bench/tests/desk_rows`.
disk d0 59
disk d1 62
disk d2 25
disk d3 46
disk d4 44
create d30 0 59 snapshot-origin d0
write d30 0 512*00 512*01 512*02 512*03 512*04 512*05 512*06 512*07 512*08 512*09 512*0a 512*0b 512*0c 512*0d 512*0e 512*0f 512*10 512*11 512*12 512*13 512*14 512*15 512*16 512*17 512*18 512*19 512*1a 512*1b 512*1c 512*1d 512*1e 512*1f 512*20 512*21 512*22 512*23 512*24 512*25 512*26 512*27 512*28 512*29 512*2a 512*2b 512*2c 512*2d 512*2e 512*2f 512*30 512*31 512*32 512*33 512*34 512*35 512*36 512*37 512*38 512*39 512*3a
create d31 0 62 snapshot-origin d1
write d31 0 512*00 512*01 512*02 512*03 512*04 512*05 512*06 512*07 512*08 512*09 512*0a 512*0b 512*0c 512*0d 512*0e 512*0f 512*10 512*11 512*12 512*13 512*14 512*15 512*16 512*17 512*18 512*19 512*1a 512*1b 512*1c 512*1d 512*1e 512*1f 512*20 512*21 512*22 512*23 512*24 512*25 512*26 512*27 512*28 512*29 512*2a 512*2b 512*2c 512*2d 512*2e 512*2f 512*30 512*31 512*32 512*33 512*34 512*35 512*36 512*37 512*38 512*39 512*3a 512*3b 512*3c 512*3d
create d40 0 59 snapshot d0 d2 P 1
create d41 0 62 snapshot d1 d3 P 1
create d42 0 59 snapshot d0 d4 P 1
tick 3
save d0 0 59
save d1 0 62
save d2 0 25
save d3 0 46
save d4 0 44
create d9 0 8 flakey d0 0 0 0
read d40 29 5
load d1 10 512*be 512*cb 512*d1 512*3e 512*fc 512*a8
write d31 35 512*2c 512*70 512*11 512*a3 512*74 512*aa
write d30 39 512*be
remove d42
write d30 3 512*cf
write d40 30 512*59 512*92
save d0 0 59
save d1 0 62
save d2 0 25
save d3 0 46
save d4 0 44
stop d31
create d31 0 62 snapshot-origin d1
create d40 0 59 snapshot d0 d2 P 1
create d41 0 62 snapshot d1 d3 P 1
create d42 0 59 snapshot d0 d4 P 1
tick 3
disk d4 27
write d30 49 512*8a 512*97 512*4a 512*8f 512*73 512*03
disk d3 23
message d24 0 disable
write d41 27 512*3e 512*00 512*8f 512*c8 512*51
write d31 4 512*90 512*38
save d0 0 59
save d1 0 62
save d2 0 25
save d3 0 46
save d4 0 44
remove d42
remove d24
remove d14
load d4 0 1*53 1*6e 1*41 1*70 1*01 3*00 1*01 3*00 1*01 499*00
create d42 0 59 snapshot d0 d4 P 1
write d40 57 512*6f
remove d41
remove d23
remove d13
load d3 0 1*53 1*6e 1*41 1*70 1*01 3*00 1*01 3*00 1*01 15*00 1*1c 483*00
create d41 0 62 snapshot d1 d3 P 1
write d31 16 512*3c 512*bc 512*fe 512*4e 512*95 512*b1
read d30 29 6
load d0 14 512*7b 512*d2
write d30 46 512*03 512*7b 512*01 512*2c 512*48 512*b8
finish d31
save d0 0 59
save d1 0 62
save d2 0 25
save d3 0 46
save d4 0 44
write d30 18 512*8e 512*88 512*6d 512*c7 512*79 512*11
settle d31
read d42 54 3
merge d42
read d30 0 59
message d23 0 addbadblock 31
settle d30
status d30
tick 2
resume d30
settle d30
status d30
tick 0
resume d30
settle d30
status d30
tick 0
resume d30
finish d30
create d42 0 59 snapshot d0 d4 P 1
remove d40
remove d22
remove d12
load d2 0 512*00
create d40 0 59 snapshot d0 d2 P 1
write d40 55 512*d1 512*bc 512*00 512*8e
status d30
remove d41
remove d23
remove d13
load d3 1 1*23 7*00 1*26 7*00 1*24 7*00 1*03 7*00 1*25 7*00 1*04 7*00 1*26 7*00 1*05 7*00 1*27 7*00 1*06 7*00 1*28 7*00 1*07 7*00 1*1b 7*00 1*08 7*00 1*1c 7*00 1*09 7*00 1*1d 7*00 1*0a 7*00 1*1e 7*00 1*0b 7*00 1*1f 7*00 1*0c 7*00 1*04 7*00 1*0d 7*00 1*05 7*00 1*0e 7*00 1*10 7*00 1*0f 7*00 1*11 7*00 1*10 7*00 1*12 7*00 1*11 7*00 1*13 7*00 1*12 7*00 1*14 7*00 1*13 7*00 1*15 7*00 1*14 215*00
create d41 0 62 snapshot d1 d3 P 1
save d0 0 59
save d1 0 62
save d2 0 25
save d3 0 46
save d4 0 44
write d42 36 512*14 512*84 512*0d 512*d6 512*74
tick 1
read d31 30 5
remove d42
remove d24
remove d14
load d4 0 1*53 1*6e 1*41 1*70 1*01 3*00 1*01 3*00 1*01 499*00
create d42 0 59 snapshot d0 d4 P 1
status d42
tick 2
remove d40
create d40 0 59 snapshot d0 d2 P 1
create d30 0 59 snapshot-origin d0
save d0 0 59
save d1 0 62
save d2 0 25
save d3 0 46
save d4 0 44
tick 3
write d30 5 512*f2 512*d4 512*72 512*61 512*21
remove d42
remove d24
remove d14
load d4 3 20*84 1*09 491*84
create d42 0 59 snapshot d0 d4 P 1
status d42
write d30 50 512*01 512*d8 512*88
write d41 47 1024*69 512*63 512*d2 512*ee
read d42 31 5
disk d3 41
save d0 0 59
save d1 0 62
save d2 0 25
save d3 0 46
save d4 0 44
save d0 38 4
read d31 37 5
remove d42
create d42 0 59 snapshot d0 d4 P 1
remove d42
create d42 0 59 snapshot d0 d4 P 1
write d30 8 512*80 512*8a 512*7e
table d45
remove d40
remove d22
remove d12
load d2 0 1*53 1*6e 1*41 1*70 1*01 3*00 1*01 3*00 1*01 499*00
create d40 0 59 snapshot d0 d2 P 1
create d9 0 8 flakey d0 0 0 0
disk d1 32
save d0 0 59
save d1 0 62
save d2 0 25
save d3 0 46
save d4 0 44
merge d41
read d31 0 62
settle d31
read d31 0 62
message d21 0 countbadblocks
write d30 21 512*6b 512*f9 512*0b 512*67 512*9b 512*77
settle d30
settle d31
status d31
tick 1
resume d31
settle d31
status d31
tick 1
resume d31
settle d31
status d31
tick 0
resume d31
finish d31
create d41 0 62 snapshot d1 d3 P 1
write d42 36 512*b8 512*1e 512*c8 512*1d
save d3 25 6
resume d42
merge d41
read d31 0 62
settle d31
read d31 0 62
load d0 22 512*49 512*03 512*ad 512*a5
settle d40
settle d31
status d31
tick 1
resume d31
finish d31
create d41 0 62 snapshot d1 d3 P 1
write d40 10 512*00 512*92
write d40 9 512*89 512*d6 512*9f
tick 3
save d0 0 59
save d1 0 62
save d2 0 25
save d3 0 46
save d4 0 44
write d40 41 512*1e 512*93 512*bd
remove d41
create d41 0 62 snapshot d1 d3 P 1
save d2 13 1
write d42 51 512*7e 512*55
message d24 0 addbadblock 5
remove d42
create d42 0 59 snapshot d0 d4 P 1
remove d42
remove d24
remove d14
load d4 0 512*00
create d42 0 59 snapshot d0 d4 P 1
merge d42
save d1 17 3
save d0 0 59
save d1 0 62
save d2 0 25
save d3 0 46
save d4 0 44
write d31 24 512*9f 512*dc 512*8e
write d40 34 512*eb
stop d30
create d30 0 59 snapshot-origin d0
create d40 0 59 snapshot d0 d2 P 1
status d41
remove d40
create d40 0 59 snapshot d0 d2 P 1
remove d40
create d40 0 59 snapshot d0 d2 P 1
write d30 22 512*59
write d41 57 512*89 512*27 512*4f
merge d41
save d0 0 59
save d1 0 62
save d2 0 25
save d3 0 46
save d4 0 44
write d30 40 512*c2 512*eb 512*8b
resume d42
status d42
merge d40
settle d40
settle d30
status d30
tick 2
resume d30
settle d30
status d30
tick 0
resume d30
settle d30
status d30
tick 0
resume d30
finish d30
create d40 0 59 snapshot d0 d2 P 1
read d30 53 6
settle d31
remove d40
create d40 0 59 snapshot d0 d2 P 1
remove d40
create d40 0 59 snapshot d0 d2 P 1
stop d31
create d31 0 62 snapshot-origin d1
create d40 0 59 snapshot d0 d2 P 1
create d41 0 62 snapshot d1 d3 P 1
create d42 0 59 snapshot d0 d4 P 1
save d0 0 59
save d1 0 62
save d2 0 25
save d3 0 46
save d4 0 44
status d30
stop d30
create d30 0 59 snapshot-origin d0
create d40 0 59 snapshot d0 d2 P 1
create d41 0 62 snapshot d1 d3 P 1
create d42 0 59 snapshot d0 d4 P 1
message d23 0 addbadblock 20
read d31 9 3
write d40 9 512*6d
write d41 53 512*42
merge d42
read d30 0 59
settle d30
read d30 0 59
save d2 24 1
load d2 12 512*29 512*5c 512*88 512*0c 512*70 512*b8
write d15 3 512*b6 512*53 512*a4 512*be 512*0c 512*c3
write d40 14 512*b1 512*70
finish d30
settle d30
status d30
tick 1
resume d30
finish d30
create d42 0 59 snapshot d0 d4 P 1
write d30 48 512*25
save d0 0 59
save d1 0 62
save d2 0 25
save d3 0 46
save d4 0 44
write d42 10 512*d7 512*56
write d41 49 512*9b
write d30 2 512*b3
stop d30
create d30 0 59 snapshot-origin d0
create d40 0 59 snapshot d0 d2 P 1
create d41 0 62 snapshot d1 d3 P 1
create d42 0 59 snapshot d0 d4 P 1
read d30 52 2
read d30 52 2
read d30 7 4
stop d31
create d31 0 62 snapshot-origin d1
create d40 0 59 snapshot d0 d2 P 1
create d41 0 62 snapshot d1 d3 P 1
create d42 0 59 snapshot d0 d4 P 1
save d0 0 59
save d1 0 62
save d2 0 25
save d3 0 46
save d4 0 44
save d0 3 3
read d42 14 4
create d9 0 8 flakey d0 0 0 0
frobnicate d30
read d40 8 3
write d31 8 512*a4 512*ac 512*a9 512*c9
read d41 34 4
message d21 0 enable
save d0 0 59
save d1 0 62
save d2 0 25
save d3 0 46
save d4 0 44
finish d30
disk d12 27
remove d41
remove d23
remove d13
load d3 0 512*00
create d41 0 62 snapshot d1 d3 P 1
resume d40
write d31 26 512*36 512*ed 512*be
read d42 44 3
write d41 18 512*fb 512*57 512*77
remove d42
remove d24
remove d14
load d4 0 512*00
create d42 0 59 snapshot d0 d4 P 1
save d0 0 59
save d1 0 62
save d2 0 25
save d3 0 46
save d4 0 44
write d30 54 512*6f 512*38 512*66 512*90
read d30 15 1
save d3 12 3
merge d41
read d31 0 62
write d30 45 512*f6
write d42 50 512*9c 512*82 512*3e 512*fb 512*dd 512*3c
write d40 11 512*24 512*36 512*ec 512*af
write d41 31 512*47 512*dc 512*2e 512*29 512*fb
write d42 45 512*24 512*7c 512*d2 512*58 512*14
message d23 0 addbadblock 39
read d41 26 2
settle d31
status d31
tick 1
resume d31
settle d31
status d31
tick 0
resume d31
settle d31
status d31
tick 1
resume d31
finish d31
create d41 0 62 snapshot d1 d3 P 1
read d30 13 5
save d4 7 1
frobnicate d30
remove d40
remove d22
remove d12
load d2 0 1*53 1*6e 1*41 1*70 4*00 1*01 3*00 1*01 4*00 1*08 494*00
create d40 0 59 snapshot d0 d2 P 1
save d0 0 59
save d1 0 62
save d2 0 25
save d3 0 46
save d4 0 44
write d30 39 512*8b 512*b5 512*02
finish d31
merge d40
table d4
status d40
settle d30
status d30
tick 0
resume d30
settle d30
status d30
tick 1
resume d30
settle d30
status d30
tick 2
resume d30
finish d30
create d40 0 59 snapshot d0 d2 P 1
tick 3
write d40 11 512*18 512*be 512*20 512*bd 512*46 512*67
frobnicate d30
disk d0 32
merge d42
read d30 0 59
write d31 28 512*2b 512*6e 512*10
save d0 51 2
write d30 46 512*43 512*ab 512*d9
settle d30
settle d30
status d30
tick 1
resume d30
finish d30
create d42 0 59 snapshot d0 d4 P 1
save d0 0 59
save d1 0 62
save d2 0 25
save d3 0 46
save d4 0 44
create d40 0 59 snapshot d0 d2 P 1
resume d41
message d20 0 addbadblock 44
write d31 53 512*3d
write d30 38 512*d1 512*89 512*3c 512*37 512*42 512*57
write d41 39 512*b7 512*eb
read d41 4 5
write d31 29 512*62
save d0 0 59
save d1 0 62
save d2 0 25
save d3 0 46
save d4 0 44
merge d41
write d30 10 512*60 512*f4 512*4a 512*b4 512*98 512*ed
create d9 0 24 snapshot d0 d2 P 3
read d30 3 4
write d31 47 512*dd 512*5a
read d41 56 5
settle d30
write d42 48 512*48 512*ac 512*a8 512*52 512*5d
save d0 0 59
save d1 0 62
save d2 0 25
save d3 0 46
save d4 0 44
remove d41
load d0 3 512*65 512*21 512*4d
read d31 39 6
message d24 0 enable
create d30 0 59 snapshot-origin d0
read d0 2 3
merge d42
message d24 0 enable
save d0 0 59
save d1 0 62
save d2 0 25
save d3 0 46
save d4 0 44
tick 3
stop d31
create d31 0 62 snapshot-origin d1
create d41 0 62 snapshot d1 d3 P 1
create d42 0 59 snapshot d0 d4 P 1
write d30 40 512*ce 512*65 512*15 512*66 512*c4
table d8
write d41 34 512*f6 512*40 512*92 512*a3 512*1e
status d40
remove d42
create d42 0 59 snapshot d0 d4 P 1
remove d42
create d42 0 59 snapshot d0 d4 P 1
write d30 55 512*95 512*ea 512*0d
save d0 0 59
save d1 0 62
save d2 0 25
save d3 0 46
save d4 0 44
table d6
write d40 8 512*70 512*2a 512*2c 512*21 512*ba
merge d41
resume d30
save d3 28 6
read d31 0 4
write d40 9 512*cf 512*b3 512*3e 512*c0
merge d41
save d0 0 59
save d1 0 62
save d2 0 25
save d3 0 46
save d4 0 44
merge d40
merge d40
settle d42
tick 2
settle d30
status d30
tick 1
resume d30
finish d30
create d40 0 59 snapshot d0 d2 P 1
remove d41
remove d23
remove d13
load d3 0 1*53 1*6e 1*41 1*70 1*01 3*00 1*01 3*00 1*01 499*00
create d41 0 62 snapshot d1 d3 P 1
remove d40
create d40 0 59 snapshot d0 d2 P 1
save d20 10 4
message d20 0 addbadblock 8
remove d40
create d40 0 59 snapshot d0 d2 P 1
remove d40
remove d22
remove d12
load d2 0 512*00
create d40 0 59 snapshot d0 d2 P 1
read nosuch 0 0
save d0 0 59
save d1 0 62
save d2 0 25
save d3 0 46
save d4 0 44
read d31 47 2
remove d40
remove d22
remove d12
load d2 1 29*00 1*0c 482*00
create d40 0 59 snapshot d0 d2 P 1
read d41 32 3
write d30 42 512*44 512*76 512*f2 512*5d
write d40 44 512*9c 512*2e 512*37
write d40 49 512*f4 512*da
message d23 0 addbadblock 9
save d2 10 3
save d0 0 59
save d1 0 62
save d2 0 25
save d3 0 46
save d4 0 44
write d41 7 512*8a 512*b6 512*cb
write d30 22 512*fd
resume d40
load d2 2 512*44 512*52 512*a3 512*23
message d23 0 addbadblock 3
load d26 20 512*78 512*9c
message d22 0 countbadblocks
remove d42
create d42 0 59 snapshot d0 d4 P 1
remove d42
create d42 0 59 snapshot d0 d4 P 1
save d0 0 59
save d1 0 62
save d2 0 25
save d3 0 46
save d4 0 44
stop d31
create d31 0 62 snapshot-origin d1
create d40 0 59 snapshot d0 d2 P 1
create d42 0 59 snapshot d0 d4 P 1
remove d42
remove d24
remove d14
load d4 2 31*26 1*13 480*26
create d42 0 59 snapshot d0 d4 P 1
tick 3
message d20 0 listbadblocks
read d40 21 4
settle d30
remove d40
create d40 0 59 snapshot d0 d2 P 1
remove d40
remove d22
remove d12
load d2 0 1*53 1*6e 1*41 1*70 1*01 3*00 1*01 3*00 1*01 499*00
create d40 0 59 snapshot d0 d2 P 1
save d0 3 4
save d0 0 59
save d1 0 62
save d2 0 25
save d3 0 46
save d4 0 44
remove d40
remove d22
remove d12
load d2 0 512*00
create d40 0 59 snapshot d0 d2 P 1
save d32 9 6
read d40 7 6
write d30 4 512*39 512*5f 512*e2
write d41 11 512*e9 512*c4 512*a9 512*98 512*50 512*42
read d41 13 6
resume d31
read d30 45 1
save d0 0 59
save d1 0 62
save d2 0 25
save d3 0 46
save d4 0 44
read d40 19 1
write d41 33 512*c3 512*19 512*2c 512*aa
read d31 0 2
table d35
read d21 8 6
load d1 13 512*b5 512*8d 512*c0 512*73
write d40 7 512*09 512*88 512*0b 512*8d 512*40
read d40 50 5
save d0 0 59
save d1 0 62
save d2 0 25
save d3 0 46
save d4 0 44
save d3 5 1
remove d42
create d42 0 59 snapshot d0 d4 P 1
remove d42
remove d24
remove d14
load d4 3 1*1a 511*f2
create d42 0 59 snapshot d0 d4 P 1
message d22 0 addbadblock 11
write d42 16 512*55 512*13 512*fc 512*fd
remove d41
create d41 0 62 snapshot d1 d3 P 1
write d31 32 512*98 512*22
read d31 20 1
read d41 25 1
save d0 0 59
save d1 0 62
save d2 0 25
save d3 0 46
save d4 0 44
write d31 27 512*ee 512*c8 512*6d
write d31 10 512*f1 512*d1 512*5b 512*1b
read d31 51 5
tick 1
stop d30
create d30 0 59 snapshot-origin d0
create d40 0 59 snapshot d0 d2 P 1
create d41 0 62 snapshot d1 d3 P 1
resume d41
write d40 33 512*c6 512*30
settle d30
save d0 0 59
save d1 0 62
save d2 0 25
save d3 0 46
save d4 0 44
read d40 60 4
table d16
read d41 40 4
message d23 0 addbadblock 25
save d4 23 3
merge d42
write d40 41 512*cc 512*3e 512*52 512*08 512*95
write d12 17 512*66 512*49 512*09 512*5d 512*56
settle d30
status d30
tick 0
resume d30
finish d30
create d42 0 59 snapshot d0 d4 P 1
merge d40
read d30 41 6
save d0 0 59
save d1 0 62
save d2 0 25
save d3 0 46
save d4 0 44
read d30 13 2
status d40
read d31 35 4
settle d40
read d40 38 3
merge d41
read d31 0 62
settle d31
read d31 0 62
message d21 0 clearbadblocks
write d37 2 512*2a 512*1e 512*0d 512*61 512*6a 512*1b
settle d31
status d31
tick 1
resume d31
settle d31
status d31
tick 1
resume d31
finish d31
create d41 0 62 snapshot d1 d3 P 1
load d4 9 512*cc 512*45 512*10
save d1 51 4
save d0 0 59
save d1 0 62
save d2 0 25
save d3 0 46
save d4 0 44
message d21 0 removebadblock 16
write d30 34 512*b8 512*73 512*71
remove d42
remove d24
remove d14
load d4 0 512*00
create d42 0 59 snapshot d0 d4 P 1
table d8
write d31 23 512*ad 512*7d
remove d40
remove d22
remove d12
load d2 0 1*53 1*6e 1*41 1*70 1*01 3*00 1*01 3*00 1*01 499*00
create d40 0 59 snapshot d0 d2 P 1
message d24 0 enable
disk d4 30
save d0 0 59
save d1 0 62
save d2 0 25
save d3 0 46
save d4 0 44
write d31 54 512*46 512*54 512*ac 512*7e 512*d4 512*25
create d9 0 24 snapshot-merge d0 d2 P 1
read d42 15 4
remove d42
create d42 0 59 snapshot d0 d4 P 1
write d41 9 512*11 512*2c 512*4e
read d31 2 4
tick 1
remove d40
remove d22
remove d12
load d2 3 8*f2 1*0e 503*f2
create d40 0 59 snapshot d0 d2 P 1
save d0 0 59
save d1 0 62
save d2 0 25
save d3 0 46
save d4 0 44
settle d41
table d16
merge d40
message d22 0 queryblock 36
merge d42
tick 2
merge d42
finish d41
save d0 0 59
save d1 0 62
save d2 0 25
save d3 0 46
save d4 0 44
write d31 45 512*29 512*52 512*62 512*20
write d31 2 512*40 512*6a 512*c6
write d30 37 512*87 512*08
settle d42
save d0 40 3
merge d40
read d30 0 59
remove d31
disk d4 23
settle d30
settle d42
read d30 10 3
read d30 27 4
write d40 1 512*e2
settle d30
status d30
tick 0
resume d30
settle d30
status d30
tick 2
resume d30
settle d30
status d30
tick 1
resume d30
finish d30
create d40 0 59 snapshot d0 d2 P 1
read d31 26 3
read d31 52 4
save d0 0 59
save d1 0 62
save d2 0 25
save d3 0 46
save d4 0 44
write d30 52 512*68 512*50 512*95
status d42
message d21 0 enable
message d22 0 clearbadblocks
settle d30
write d41 54 512*fb 512*47 512*ff
write d41 57 512*fe
load d3 35 512*17 512*b5
save d0 0 59
save d1 0 62
save d2 0 25
save d3 0 46
save d4 0 44
write d30 3 512*56
write d42 9 512*c9 512*4f 512*d2 512*65
read d30 10 4
