# Pseudo-random commands over bare disks: snapshots written, spoiled, damaged and attached again, merges, stops.
# Drawn, and what must be printed was said, by the plain slow machine of `bench/tests/desk_rows`.
disk d0 31
disk d1 62
disk d2 38
disk d3 33
disk d4 47
create d30 0 31 snapshot-origin d0
write d30 0 512*00 512*01 512*02 512*03 512*04 512*05 512*06 512*07 512*08 512*09 512*0a 512*0b 512*0c 512*0d 512*0e 512*0f 512*10 512*11 512*12 512*13 512*14 512*15 512*16 512*17 512*18 512*19 512*1a 512*1b 512*1c 512*1d 512*1e
create d31 0 62 snapshot-origin d1
write d31 0 512*00 512*01 512*02 512*03 512*04 512*05 512*06 512*07 512*08 512*09 512*0a 512*0b 512*0c 512*0d 512*0e 512*0f 512*10 512*11 512*12 512*13 512*14 512*15 512*16 512*17 512*18 512*19 512*1a 512*1b 512*1c 512*1d 512*1e 512*1f 512*20 512*21 512*22 512*23 512*24 512*25 512*26 512*27 512*28 512*29 512*2a 512*2b 512*2c 512*2d 512*2e 512*2f 512*30 512*31 512*32 512*33 512*34 512*35 512*36 512*37 512*38 512*39 512*3a 512*3b 512*3c 512*3d
create d40 0 31 snapshot d0 d2 P 1
create d41 0 62 snapshot d1 d3 P 1
create d42 0 31 snapshot d0 d4 P 1
table d1
save d0 0 31
save d1 0 62
save d2 0 38
save d3 0 33
save d4 0 47
tick 1
resume d41
write d30 18 512*4a 512*74 512*5e
write d31 52 512*db 512*89 512*d4 512*b3 512*78 512*a2
remove d42
remove d24
remove d14
load d4 0 1*53 1*6e 1*41 1*70 1*01 3*00 1*01 3*00 1*01 499*00
create d42 0 31 snapshot d0 d4 P 1
read d42 4 1
write d30 35 512*1d 512*5f 512*c0 512*76 512*a5
write d40 9 512*02 512*fd 512*26
save d0 0 31
save d1 0 62
save d2 0 38
save d3 0 33
save d4 0 47
write d40 1 512*a1 512*f1 512*47 512*59 512*53
resume d30
save d3 17 2
read d31 48 3
write d31 32 512*41 512*c1 512*f8
merge d42
read d30 0 31
table d46
load d4 41 512*d2 512*9f 512*ec 512*1e 512*95
save d3 13 6
message d21 0 addbadblock 13
write d30 21 512*7e 512*07 512*d4 512*6d 512*14
remove d30
settle d30
status d30
tick 0
resume d30
settle d30
status d30
tick 1
resume d30
settle d30
status d30
tick 2
resume d30
finish d30
create d42 0 31 snapshot d0 d4 P 1
write d42 13 512*c2 512*9d 512*87
disk d3 41
save d0 0 31
save d1 0 62
save d2 0 38
save d3 0 33
save d4 0 47
remove d42
remove d24
remove d14
load d4 0 1*53 1*6e 1*41 1*70 1*01 3*00 1*01 3*00 1*01 499*00
create d42 0 31 snapshot d0 d4 P 1
message d24 0 enable
save d2 19 2
write d31 26 512*1b
status d42
write d40 12 512*c5 512*53 512*73
settle d31
settle d30
save d0 0 31
save d1 0 62
save d2 0 38
save d3 0 33
save d4 0 47
read d42 8 3
disk d3 31
status d42
tick 1
write d40 8 512*90 512*20
write d30 15 512*ee 512*a7 512*19 512*f8
write d42 19 512*72 512*c2 512*3a 512*ed
merge d41
read d31 0 62
read d30 1 6
write d31 9 512*81 512*c4 512*86 512*a1 512*33 512*fb
settle d31
status d31
tick 2
resume d31
settle d31
status d31
tick 0
resume d31
finish d31
create d41 0 62 snapshot d1 d3 P 1
save d0 0 31
save d1 0 62
save d2 0 38
save d3 0 33
save d4 0 47
write d40 2 512*b2 512*53 512*d9
read d40 2 6
write d41 39 512*bf 512*0c 512*4b 512*3c
merge d42
read d30 0 31
settle d30
read d30 0 31
settle d30
status d30
tick 1
resume d30
finish d30
create d42 0 31 snapshot d0 d4 P 1
write d30 7 512*e1
write d10 10 512*97
stop d31
create d31 0 62 snapshot-origin d1
create d42 0 31 snapshot d0 d4 P 1
write d31 3 512*a3
save d0 0 31
save d1 0 62
save d2 0 38
save d3 0 33
save d4 0 47
remove d40
remove d22
remove d12
load d2 3 20*13 1*0a 491*13
create d40 0 31 snapshot d0 d2 P 1
remove d41
remove d23
remove d13
load d3 0 1*53 1*6e 1*41 1*70 1*01 3*00 1*01 3*00 1*01 499*00
create d41 0 62 snapshot d1 d3 P 1
save d0 0 2
message d20 0 addbadblock 0
message d20 0 addbadblock 33
write d40 5 512*50 512*57 512*f3 512*e4
settle d30
merge d41
read d31 0 62
status d41
write d31 25 512*b0 512*ff 512*f7 512*dc 512*17
save d4 14 2
write d30 11 512*4f 512*67 512*6c 512*5a 512*9f 512*1b
settle d31
status d31
tick 2
resume d31
finish d31
create d41 0 62 snapshot d1 d3 P 1
save d0 0 31
save d1 0 62
save d2 0 38
save d3 0 33
save d4 0 47
resume d31
read d40 17 6
remove d41
create d41 0 62 snapshot d1 d3 P 1
remove d41
remove d23
remove d13
load d3 1 14*00 1*1a 497*00
create d41 0 62 snapshot d1 d3 P 1
write d40 16 512*31
write d31 38 512*0c 512*b3 512*67 512*2d
write d40 9 512*4b 512*f2 512*fe 512*cc 512*7e
save d1 14 6
status d40
save d0 0 31
save d1 0 62
save d2 0 38
save d3 0 33
save d4 0 47
merge d42
table d11
finish d42
remove d41
create d41 0 62 snapshot d1 d3 P 1
read d30 19 1
settle d42
remove d41
remove d23
remove d13
load d3 2 6*bf 1*00 505*bf
create d41 0 62 snapshot d1 d3 P 1
read d31 47 1
save d0 0 31
save d1 0 62
save d2 0 38
save d3 0 33
save d4 0 47
remove d41
create d41 0 62 snapshot d1 d3 P 1
write d42 8 512*0f 512*7d 512*0c 512*6f
create d41 0 62 snapshot d1 d3 P 1
message d22 0 addbadblock 43
read d40 6 3
create d30 0 31 snapshot-origin d0
write d30 5 512*e0 512*a4 512*bb 512*a0 512*5c
message d21 0 addbadblock 13
save d0 0 31
save d1 0 62
save d2 0 38
save d3 0 33
save d4 0 47
save d0 9 1
write d40 15 512*c5 512*6a
read d40 26 3
load d1 17 512*1e 512*24 512*84 512*0e
write d31 54 512*cb 512*5e 512*80 512*15 512*fe
load d3 24 512*77 512*b7 512*6c 512*51 512*db 512*eb
resume d42
read d31 26 4
save d0 0 31
save d1 0 62
save d2 0 38
save d3 0 33
save d4 0 47
disk d4 46
write d40 3 512*f9 512*30 512*3a 512*51 512*11 512*2e
remove d41
remove d23
remove d13
load d3 0 512*00
create d41 0 62 snapshot d1 d3 P 1
read d42 13 3
message d20 0 disable
remove d42
remove d24
remove d14
load d4 2 5*bb 1*03 506*bb
create d42 0 31 snapshot d0 d4 P 1
write d31 33 512*13 512*35
save d0 1 2
save d0 0 31
save d1 0 62
save d2 0 38
save d3 0 33
save d4 0 47
remove d42
remove d24
remove d14
load d4 2 33*bb 1*09 478*bb
create d42 0 31 snapshot d0 d4 P 1
write d42 2 512*7f 512*61 512*b6 512*0f 512*45 512*d7
finish d31
stop d31
create d31 0 62 snapshot-origin d1
create d40 0 31 snapshot d0 d2 P 1
create d41 0 62 snapshot d1 d3 P 1
create d42 0 31 snapshot d0 d4 P 1
merge d40
read d40 13 5
settle d30
status d30
tick 2
resume d30
settle d30
status d30
tick 1
resume d30
finish d30
create d40 0 31 snapshot d0 d2 P 1
stop d31
create d31 0 62 snapshot-origin d1
create d41 0 62 snapshot d1 d3 P 1
create d42 0 31 snapshot d0 d4 P 1
write d40 1 512*b6
tick 3
save d0 0 31
save d1 0 62
save d2 0 38
save d3 0 33
save d4 0 47
remove d42
create d42 0 31 snapshot d0 d4 P 1
merge d41
read d31 0 62
merge d41
read d42 10 6
remove d30
write d41 10 512*b9 512*ef 512*b5 512*9b 512*d6 512*b8
tick 1
write d31 20 512*00 512*e0 512*68 512*da 512*a0 512*09
write d41 9 512*49 512*74 512*92
settle d31
status d31
tick 2
resume d31
settle d31
status d31
tick 0
resume d31
finish d31
create d41 0 62 snapshot d1 d3 P 1
disk d1 47
merge d42
remove d40
remove d22
remove d12
load d2 0 512*00
create d40 0 31 snapshot d0 d2 P 1
write d30 4 512*e0
frobnicate d30
remove d42
remove d24
remove d14
load d4 0 1*53 1*6e 1*41 1*70 1*01 3*00 1*01 3*00 1*01 3*00 1*24 495*00
create d42 0 31 snapshot d0 d4 P 1
save d0 0 31
save d1 0 62
save d2 0 38
save d3 0 33
save d4 0 47
merge d40
merge d42
read d31 22 2
write d40 17 512*ad 512*09
write d30 7 512*18 512*b1 512*24 512*3b 512*2c 512*07
remove d42
create d42 0 31 snapshot d0 d4 P 1
write d42 16 512*48 512*cc 512*85
load d3 8 512*8d 512*98 512*17 512*8b 512*8f 512*11
save d0 0 31
save d1 0 62
save d2 0 38
save d3 0 33
save d4 0 47
tick 1
save d2 23 6
create d31 0 62 snapshot-origin d1
remove d40
remove d22
remove d12
load d2 0 6*00 1*0f 505*00
create d40 0 31 snapshot d0 d2 P 1
save d3 2 4
read d42 4 6
disk d0 24
remove d42
create d42 0 31 snapshot d0 d4 P 1
save d0 0 31
save d1 0 62
save d2 0 38
save d3 0 33
save d4 0 47
read d31 27 4
remove d41
create d41 0 62 snapshot d1 d3 P 1
remove d41
remove d23
remove d13
load d3 0 512*00
create d41 0 62 snapshot d1 d3 P 1
save d1 13 3
settle d41
write d31 12 512*84 512*97
read d40 8 4
save d4 2 6
read d30 9 6
save d0 0 31
save d1 0 62
save d2 0 38
save d3 0 33
save d4 0 47
settle d31
create d42 0 31 snapshot d0 d4 P 1
merge d41
read d31 0 62
message d20 0 disable
write d31 43 512*88 512*bd 512*de 512*1a 512*91
settle d31
status d31
tick 0
resume d31
finish d31
create d41 0 62 snapshot d1 d3 P 1
stop d30
create d30 0 31 snapshot-origin d0
create d41 0 62 snapshot d1 d3 P 1
write d30 6 512*33
read d42 13 3
read d31 34 3
create d42 0 31 snapshot d0 d4 P 1
save d0 0 31
save d1 0 62
save d2 0 38
save d3 0 33
save d4 0 47
merge d40
read d40 6 3
save d30 5 3
write d42 14 512*f1 512*8e
write d42 1 512*bb 512*60 512*a1
read d40 15 4
settle d31
settle d30
status d30
tick 1
resume d30
finish d30
create d40 0 31 snapshot d0 d2 P 1
write d42 0 512*32 512*fa 512*50 512*df 512*f3
remove d42
remove d24
remove d14
load d4 0 1*53 1*6e 1*41 1*70 1*01 3*00 1*01 3*00 1*01 14*00 1*0f 484*00
create d42 0 31 snapshot d0 d4 P 1
write d31 55 512*1b
read d30 49 4
merge d41
read d31 0 62
settle d31
read d31 0 62
message d20 0 clearbadblocks
save d0 22 2
write d30 13 512*18 512*a3 512*c8 512*08
load d4 25 512*ca 512*18 512*b1 512*6d 512*ef
resume d40
settle d31
settle d31
status d31
tick 2
resume d31
settle d31
status d31
tick 1
resume d31
finish d31
create d41 0 62 snapshot d1 d3 P 1
write d41 6 512*b8 512*f5 512*ff 512*1c 512*d6 512*86
save d2 12 2
save d0 0 31
save d1 0 62
save d2 0 38
save d3 0 33
save d4 0 47
merge d40
read d30 0 31
settle d30
read d30 0 31
read d42 22 4
write d30 8 512*45 512*d6 512*3c 512*8e 512*0b
write d30 15 512*e6 512*46
write d42 16 512*46 512*5f 512*53
read d30 9 2
write d30 9 512*7c 512*15 512*d0 512*82
settle d30
status d30
tick 1
resume d30
settle d30
status d30
tick 1
resume d30
finish d30
create d40 0 31 snapshot d0 d2 P 1
write d42 12 512*40 512*25 512*44 512*de
remove d40
create d40 0 31 snapshot d0 d2 P 1
remove d40
remove d22
remove d12
load d2 0 512*00
create d40 0 31 snapshot d0 d2 P 1
write d42 15 512*4d 512*e7 512*89
merge d41
read d31 0 62
settle d31
read d31 0 62
remove d40
write d30 4 512*85 512*38 512*f3 512*fd 512*7e 512*70
write d42 11 512*df 512*38 512*0f 512*c0 512*f4
settle d31
status d31
tick 2
resume d31
finish d31
create d41 0 62 snapshot d1 d3 P 1
write d31 52 512*82 512*23 512*b6 512*7c 512*6b
merge d41
read d31 0 62
settle d31
read d31 0 62
write d40 3 512*fd 512*f2 512*b5 512*aa 512*49
write d31 18 512*9c 512*04 512*e4 512*a7 512*dc
write d16 5 512*19 512*d1 512*95 512*ae
read d40 5 1
write d31 28 512*dd 512*b2
settle d31
status d31
tick 0
resume d31
settle d31
status d31
tick 1
resume d31
finish d31
create d41 0 62 snapshot d1 d3 P 1
write d30 12 512*49 512*97 512*59 512*38 512*ec
save d0 0 31
save d1 0 62
save d2 0 38
save d3 0 33
save d4 0 47
write d31 9 512*7b 512*86 512*a5
write d42 19 512*e2 512*f2 512*fe
write d42 13 512*10 512*d6
settle d30
tick 3
merge d40
write d31 25 512*63 512*84 512*09 512*e7 512*9a 512*db
tick 1
remove d41
write d31 46 512*c8 512*f8 512*cb 512*45 512*ec 512*3b
table d1
settle d30
status d30
tick 0
resume d30
settle d30
status d30
tick 0
resume d30
settle d30
status d30
tick 1
resume d30
finish d30
create d40 0 31 snapshot d0 d2 P 1
write d40 63 512*a4 512*d4
create d9 0 8 flakey d0 0 0 0
save d0 0 31
save d1 0 62
save d2 0 38
save d3 0 33
save d4 0 47
merge d40
message d20 0 listbadblocks
finish d31
read d42 15 4
message d22 0 disable
remove d42
create d42 0 31 snapshot d0 d4 P 1
remove d31
finish d40
save d0 0 31
save d1 0 62
save d2 0 38
save d3 0 33
save d4 0 47
remove d42
remove d24
remove d14
load d4 3 21*f4 1*1e 490*f4
create d42 0 31 snapshot d0 d4 P 1
stop d30
create d30 0 31 snapshot-origin d0
create d40 0 31 snapshot d0 d2 P 1
create d41 0 62 snapshot d1 d3 P 1
create d42 0 31 snapshot d0 d4 P 1
write d42 19 512*80 512*23 512*7b 512*1d 512*bb 512*d7
remove d40
create d40 0 31 snapshot d0 d2 P 1
message d14 0 clearbadblocks
merge d41
message d21 0 addbadblock 7
merge d41
write d42 7 512*b2 512*da 512*1b 512*52 512*5a 512*32
write d31 15 512*c2 512*9c
tick 2
settle d30
status d30
tick 1
resume d30
settle d30
status d30
tick 0
resume d30
finish d30
create d41 0 62 snapshot d1 d3 P 1
remove d42
remove d24
remove d14
load d4 0 512*00
create d42 0 31 snapshot d0 d4 P 1
write d41 7 512*f5 512*98 512*30 512*36
save d0 0 31
save d1 0 62
save d2 0 38
save d3 0 33
save d4 0 47
message d20 0 disable
remove d40
create d40 0 31 snapshot d0 d2 P 1
write d31 1 512*64 512*2a 512*43
write d31 4 512*7c 512*84 512*de 512*be 512*fa
read d30 24 2
message d21 0 queryblock 47
write d31 3 512*5e 512*4a 512*00 512*a9 512*1b 512*8c
status d42
save d0 0 31
save d1 0 62
save d2 0 38
save d3 0 33
save d4 0 47
read d30 12 6
write d40 0 512*c6 512*02 512*4d 512*86 512*c1
remove d41
remove d23
remove d13
load d3 0 1*53 1*6e 1*41 1*70 1*01 3*00 1*01 3*00 1*01 499*00
create d41 0 62 snapshot d1 d3 P 1
status d41
write d42 2 512*9c 512*9d 512*01
message d23 0 addbadblock 12
settle d31
write d40 0 512*d2 512*b1 512*f0
save d0 0 31
save d1 0 62
save d2 0 38
save d3 0 33
save d4 0 47
remove d41
remove d23
remove d13
load d3 1 1*09 7*00 1*02 7*00 1*0a 3*00 1*22 3*00 1*03 7*00 1*0b 7*00 1*04 7*00 1*19 7*00 1*05 7*00 1*1a 7*00 1*06 7*00 1*1b 7*00 1*07 7*00 1*1c 7*00 1*08 7*00 1*1d 7*00 1*09 7*00 1*1e 7*00 1*0a 375*00
create d41 0 62 snapshot d1 d3 P 1
write d41 16 512*65
merge d42
read d30 0 31
settle d30
read d30 0 31
write d41 15 512*54 512*11
settle d30
status d30
tick 2
resume d30
finish d30
create d42 0 31 snapshot d0 d4 P 1
write d31 18 512*83 512*33 512*c8
write d30 20 512*1b 512*ed 512*58
write d31 59 512*03 512*f3 512*07 512*76 512*7c
finish d42
tick 2
save d0 0 31
save d1 0 62
save d2 0 38
save d3 0 33
save d4 0 47
message d21 0 countbadblocks
message d22 0 disable
merge d42
write d42 2 512*17 512*9f 512*c2 512*cc 512*23
merge d42
read d30 0 31
table d11
settle d30
status d30
tick 2
resume d30
settle d30
status d30
tick 1
resume d30
finish d30
create d42 0 31 snapshot d0 d4 P 1
read d41 15 4
disk d3 25
save d3 10 3
save d0 0 31
save d1 0 62
save d2 0 38
save d3 0 33
save d4 0 47
remove d30
settle d42
remove d41
remove d23
remove d13
load d3 0 1*53 1*6e 1*41 1*70 1*01 3*00 1*01 3*00 1*01 499*00
create d41 0 62 snapshot d1 d3 P 1
remove d41
create d41 0 62 snapshot d1 d3 P 1
remove d41
remove d23
remove d13
load d3 0 512*00
create d41 0 62 snapshot d1 d3 P 1
merge d40
read d30 0 31
settle d30
read d30 0 31
disk d2 27
save d3 17 3
settle d30
status d30
tick 0
resume d30
settle d30
status d30
tick 1
resume d30
settle d30
status d30
tick 1
resume d30
finish d30
create d40 0 31 snapshot d0 d2 P 1
status d42
create d31 0 62 snapshot-origin d1
read d40 7 4
save d0 0 31
save d1 0 62
save d2 0 38
save d3 0 33
save d4 0 47
merge d41
load d0 9 512*2c 512*ac 512*b0 512*9a 512*64 512*90
write d31 22 512*c1
read d30 6 4
write d31 53 512*16
write d31 39 512*6b 512*e3 512*ce 512*4e 512*38
tick 3
merge d41
settle d31
save d4 35 1
read d31 28 3
create d9 0 8 flakey d0 0 0 0
status d42
read d25 4 2
settle d30
status d30
tick 0
resume d30
finish d30
create d41 0 62 snapshot d1 d3 P 1
save d0 0 31
save d1 0 62
save d2 0 38
save d3 0 33
save d4 0 47
stop d31
create d31 0 62 snapshot-origin d1
create d41 0 62 snapshot d1 d3 P 1
create d42 0 31 snapshot d0 d4 P 1
message d21 0 enable
status d41
read d30 51 3
tick 2
disk d0 32
save d3 16 1
settle d41
save d0 0 31
save d1 0 62
save d2 0 38
save d3 0 33
save d4 0 47
read d31 2 2
write d40 3 512*d3 512*b1 512*62 512*7d 512*d4
read d31 22 4
settle d30
status d41
read nosuch 0 0
write d31 22 512*30 512*85 512*87 512*b1 512*01 512*ff
read d41 41 6
save d0 0 31
save d1 0 62
save d2 0 38
save d3 0 33
save d4 0 47
read d30 13 1
remove d40
create d40 0 31 snapshot d0 d2 P 1
remove d41
create d41 0 62 snapshot d1 d3 P 1
remove d41
remove d23
remove d13
load d3 2 4*c1 1*0f 507*c1
create d41 0 62 snapshot d1 d3 P 1
tick 1
merge d42
read d30 0 31
message d22 0 removebadblock 1
message d21 0 addbadblock 40
save d0 13 1
settle d41
settle d42
write d40 9 512*24 512*8a 512*a9
settle d30
status d30
tick 0
resume d30
settle d30
status d30
tick 0
resume d30
settle d30
status d30
tick 0
resume d30
finish d30
create d42 0 31 snapshot d0 d4 P 1
remove d40
remove d22
remove d12
load d2 0 1*53 1*6e 1*41 1*70 1*01 3*00 1*01 3*00 1*01 499*00
create d40 0 31 snapshot d0 d2 P 1
message d21 0 queryblock 5
message d22 0 addbadblock 43
save d0 0 31
save d1 0 62
save d2 0 38
save d3 0 33
save d4 0 47
write d41 38 512*93
message d24 0 countbadblocks
write d40 2 512*01 512*6e 512*81 512*e6
write d31 12 512*a6
remove d42
remove d24
remove d14
load d4 0 1*53 1*6e 1*41 1*70 1*01 3*00 1*01 3*00 1*01 499*00
create d42 0 31 snapshot d0 d4 P 1
remove d42
create d42 0 31 snapshot d0 d4 P 1
remove d42
create d42 0 31 snapshot d0 d4 P 1
write d31 22 512*cf 512*d4 512*5d 512*94 512*53 512*e6
message d23 0 addbadblock 7
save d0 0 31
save d1 0 62
save d2 0 38
save d3 0 33
save d4 0 47
save d2 27 3
settle d31
load d3 2 512*1a
write d31 8 512*16 512*47
tick 2
create d31 0 62 snapshot-origin d1
message d20 0 addbadblock 18
write d42 13 512*4a 512*57 512*c3 512*99 512*5b 512*7c
save d0 0 31
save d1 0 62
save d2 0 38
save d3 0 33
save d4 0 47
read d14 10 1
status d31
read d30 7 6
write d31 51 512*4a 512*bc 512*5f 512*b0 512*5a
write d40 16 512*c6 512*ad 512*0c 512*8b 512*40 512*2a
read d41 57 2
write d41 3 512*a3
merge d40
read d30 0 31
settle d30
read d30 0 31
write d30 16 512*58 512*b6
write d41 47 512*56 512*15 512*59 512*b8 512*df
message d24 0 clearbadblocks
finish d41
settle d30
status d30
tick 0
resume d30
settle d30
status d30
tick 2
resume d30
finish d30
create d40 0 31 snapshot d0 d2 P 1
save d0 0 31
save d1 0 62
save d2 0 38
save d3 0 33
save d4 0 47
write d41 53 512*15 512*58 512*cc 512*fa
settle d41
read d40 18 6
write d30 6 512*33 512*df 512*b5 512*5f
write d41 18 512*4c 512*86 512*56 512*d1 512*ae 512*7b
remove d42
create d42 0 31 snapshot d0 d4 P 1
remove d42
create d42 0 31 snapshot d0 d4 P 1
message d24 0 countbadblocks
load d4 8 512*5d 512*3b 512*32 512*50 512*d4 512*31
save d0 0 31
save d1 0 62
save d2 0 38
save d3 0 33
save d4 0 47
merge d41
message d23 0 enable
settle d20
read nosuch 0 0
disk d38 22
remove d40
remove d22
remove d12
load d2 0 1*53 1*6e 1*41 1*70 1*01 3*00 1*01 3*00 1*01 499*00
create d40 0 31 snapshot d0 d2 P 1
write d42 10 512*ba 512*62 512*0a
write d40 9 512*d0 512*0b 512*a7 512*02 512*e7
save d0 0 31
save d1 0 62
save d2 0 38
save d3 0 33
save d4 0 47
write d31 39 512*f7 512*60
remove d30
read d40 9 2
stop d30
create d30 0 31 snapshot-origin d0
create d40 0 31 snapshot d0 d2 P 1
create d41 0 62 snapshot d1 d3 P 1
create d42 0 31 snapshot d0 d4 P 1
merge d40
read d30 0 31
settle d30
read d30 0 31
disk d1 38
disk d2 41
status d31
merge d41
write d31 18 512*c2 512*28 512*d3 512*0a 512*80
finish d30
settle d30
status d30
tick 0
resume d30
finish d30
create d40 0 31 snapshot d0 d2 P 1
remove d42
remove d24
remove d14
load d4 2 22*4a 1*1c 489*4a
create d42 0 31 snapshot d0 d4 P 1
write d42 12 512*db
load d4 41 512*9a 512*00
save d0 0 31
save d1 0 62
save d2 0 38
save d3 0 33
save d4 0 47
write d40 13 512*ea 512*e4 512*43 512*bb
message d22 0 clearbadblocks
read d30 21 6
