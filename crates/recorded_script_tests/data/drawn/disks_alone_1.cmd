# Pseudo-random commands over bare disks: snapshots written, spoiled, damaged and attached again, merges, stops.
# Drawn, and what must be printed was said, by the plain slow machine of `bench/tests/desk_rows`.
disk d0 29
disk d1 38
disk d2 28
disk d3 42
disk d4 26
create d30 0 29 snapshot-origin d0
write d30 0 512*00 512*01 512*02 512*03 512*04 512*05 512*06 512*07 512*08 512*09 512*0a 512*0b 512*0c 512*0d 512*0e 512*0f 512*10 512*11 512*12 512*13 512*14 512*15 512*16 512*17 512*18 512*19 512*1a 512*1b 512*1c
create d31 0 38 snapshot-origin d1
write d31 0 512*00 512*01 512*02 512*03 512*04 512*05 512*06 512*07 512*08 512*09 512*0a 512*0b 512*0c 512*0d 512*0e 512*0f 512*10 512*11 512*12 512*13 512*14 512*15 512*16 512*17 512*18 512*19 512*1a 512*1b 512*1c 512*1d 512*1e 512*1f 512*20 512*21 512*22 512*23 512*24 512*25
create d40 0 29 snapshot d0 d2 P 1
create d41 0 38 snapshot d1 d3 P 1
create d42 0 29 snapshot d0 d4 P 1
remove d41
create d41 0 38 snapshot d1 d3 P 1
remove d41
create d41 0 38 snapshot d1 d3 P 1
save d0 0 29
save d1 0 38
save d2 0 28
save d3 0 42
save d4 0 26
read d30 20 6
stop d30
create d30 0 29 snapshot-origin d0
create d40 0 29 snapshot d0 d2 P 1
save d0 10 1
status d31
save d4 22 3
write d41 34 512*27
remove d40
create d40 0 29 snapshot d0 d2 P 1
message d22 0 enable
save d0 0 29
save d1 0 38
save d2 0 28
save d3 0 42
save d4 0 26
write d31 27 512*20
write d30 0 512*13 512*99 512*11 512*69 512*5b
merge d42
settle d30
status d30
tick 0
resume d30
finish d30
create d42 0 29 snapshot d0 d4 P 1
write d41 15 512*96 512*0e 512*ab
message d21 0 enable
read d31 3 3
write d30 6 512*6d 512*e6 512*c4 512*c5 512*13 512*0b
merge d41
read d31 0 38
merge d42
settle d31
status d31
tick 0
resume d31
settle d31
status d31
tick 1
resume d31
settle d31
status d31
tick 1
resume d31
finish d31
create d41 0 38 snapshot d1 d3 P 1
save d0 0 29
save d1 0 38
save d2 0 28
save d3 0 42
save d4 0 26
write d30 3 512*98 512*b1
remove d41
remove d23
remove d13
load d3 0 1*53 1*6e 1*41 1*70 1*01 3*00 1*01 3*00 1*01 499*00
create d41 0 38 snapshot d1 d3 P 1
write d30 9 512*4a 512*ed 512*f8 512*2e 512*54 512*7b
disk d3 24
write d31 13 512*bb 512*4e 512*bc
write d36 0 512*ce 512*92 512*94 512*f3 512*74 512*d0
write d31 13 512*6a 512*25 512*66
merge d41
read d31 0 38
settle d31
read d31 0 38
message d24 0 addbadblock 42
settle d31
status d31
tick 1
resume d31
finish d31
create d41 0 38 snapshot d1 d3 P 1
save d0 0 29
save d1 0 38
save d2 0 28
save d3 0 42
save d4 0 26
status d42
resume d41
remove d40
remove d22
remove d12
load d2 0 1*53 1*6e 1*41 1*70 1*01 3*00 1*01 3*00 1*01 499*00
create d40 0 29 snapshot d0 d2 P 1
write d31 15 512*4b
save d2 9 5
remove d40
remove d22
remove d12
load d2 0 512*00
create d40 0 29 snapshot d0 d2 P 1
message d24 0 disable
stop d31
create d31 0 38 snapshot-origin d1
create d40 0 29 snapshot d0 d2 P 1
create d41 0 38 snapshot d1 d3 P 1
create d42 0 29 snapshot d0 d4 P 1
save d0 0 29
save d1 0 38
save d2 0 28
save d3 0 42
save d4 0 26
load d3 5 512*79 512*80 512*20 512*fc 512*60 512*64
write d31 19 512*ac 512*ea 512*22
message d20 0 enable
read d40 9 2
write d40 12 512*08 512*fa 512*ca 512*83 512*08
write d42 11 512*80 512*50
read d31 22 3
status nosuch
save d0 0 29
save d1 0 38
save d2 0 28
save d3 0 42
save d4 0 26
remove d40
remove d22
remove d12
load d2 0 512*00
create d40 0 29 snapshot d0 d2 P 1
write d40 1 512*c6 512*b5
settle d41
remove d41
remove d23
remove d13
load d3 0 1*53 1*6e 1*41 1*70 1*01 3*00 1*01 3*00 1*01 10*00 1*26 488*00
create d41 0 38 snapshot d1 d3 P 1
status d31
status d41
stop d31
create d31 0 38 snapshot-origin d1
create d40 0 29 snapshot d0 d2 P 1
create d41 0 38 snapshot d1 d3 P 1
create d42 0 29 snapshot d0 d4 P 1
remove d42
remove d24
remove d14
load d4 0 1*53 1*6e 1*41 1*70 1*01 3*00 1*01 3*00 1*01 499*00
create d42 0 29 snapshot d0 d4 P 1
save d0 0 29
save d1 0 38
save d2 0 28
save d3 0 42
save d4 0 26
write d45 6 512*fb 512*2f 512*7a 512*f8 512*75
write d31 0 512*31 512*0d
tick 3
finish d41
remove d42
remove d24
remove d14
load d4 0 1*53 1*6e 1*41 1*70 1*01 3*00 1*01 3*00 1*01 499*00
create d42 0 29 snapshot d0 d4 P 1
remove d41
table d7
write d41 55 512*86 512*a0 512*09 512*bc
save d0 0 29
save d1 0 38
save d2 0 28
save d3 0 42
save d4 0 26
status d40
write d42 9 512*cb 512*7b 512*75 512*fb
remove d40
remove d22
remove d12
load d2 0 39*00 1*20 472*00
create d40 0 29 snapshot d0 d2 P 1
table d11
write d42 3 512*11 512*3c
remove d41
remove d23
remove d13
load d3 1 1*0f 7*00 1*02 7*00 1*13 7*00 1*03 5*00 1*14 1*00 1*14 7*00 1*04 7*00 1*15 7*00 1*05 15*00 1*06 7*00 1*01 7*00 1*07 423*00
create d41 0 38 snapshot d1 d3 P 1
remove d40
create d40 0 29 snapshot d0 d2 P 1
remove d40
remove d22
remove d12
load d2 2 21*00 1*1e 490*00
create d40 0 29 snapshot d0 d2 P 1
read d31 6 6
save d0 0 29
save d1 0 38
save d2 0 28
save d3 0 42
save d4 0 26
write d42 4 512*6b 512*87 512*4b 512*82 512*d9 512*77
read d30 17 1
remove d40
remove d22
remove d12
load d2 0 1*53 1*6e 1*41 1*70 1*01 3*00 1*01 3*00 1*01 26*00 1*20 472*00
create d40 0 29 snapshot d0 d2 P 1
remove d41
remove d23
remove d13
load d3 0 1*53 1*6e 1*41 1*70 1*01 3*00 1*01 3*00 1*01 10*00 1*26 1*00 1*19 486*00
create d41 0 38 snapshot d1 d3 P 1
remove d41
remove d23
remove d13
load d3 0 1*53 1*6e 1*41 1*70 1*01 3*00 1*01 3*00 1*01 10*00 1*26 1*00 1*19 486*00
create d41 0 38 snapshot d1 d3 P 1
save d0 17 4
read d2 10 6
write d42 10 512*51 512*2f 512*e0 512*a1 512*d4 512*c7
save d0 0 29
save d1 0 38
save d2 0 28
save d3 0 42
save d4 0 26
tick 1
write d31 13 512*5b 512*3b
status d31
write d6 6 512*2e 512*ae 512*f4
write d42 3 512*51 512*d5 512*e0 512*59
remove d41
remove d23
remove d13
load d3 0 512*00
create d41 0 38 snapshot d1 d3 P 1
stop d30
create d30 0 29 snapshot-origin d0
create d41 0 38 snapshot d1 d3 P 1
create d42 0 29 snapshot d0 d4 P 1
tick 1
save d0 0 29
save d1 0 38
save d2 0 28
save d3 0 42
save d4 0 26
write d40 12 512*61 512*76 512*7f 512*79
finish d42
table d15
remove d42
read d31 1 3
message d20 1 enable
write d42 3 512*f8 512*90
read d42 0 4
save d0 0 29
save d1 0 38
save d2 0 28
save d3 0 42
save d4 0 26
stop d31
create d31 0 38 snapshot-origin d1
create d40 0 29 snapshot d0 d2 P 1
create d41 0 38 snapshot d1 d3 P 1
create d42 0 29 snapshot d0 d4 P 1
frobnicate d30
save d1 12 1
settle d31
remove d40
remove d22
remove d12
load d2 1 8*00 1*02 7*00 1*01 7*00 1*03 7*00 1*0d 7*00 1*04 7*00 1*03 7*00 1*05 7*00 1*04 7*00 1*06 7*00 1*06 7*00 1*07 7*00 1*07 7*00 1*08 7*00 1*08 7*00 1*09 7*00 1*09 7*00 1*0a 7*00 1*0a 7*00 1*0b 7*00 1*0b 7*00 1*0c 7*00 1*0c 7*00 1*0d 7*00 1*0d 7*00 1*0e 7*00 1*0e 7*00 1*0f 295*00
create d40 0 29 snapshot d0 d2 P 1
merge d40
settle d41
write d30 14 512*56 512*a3
save d0 0 29
save d1 0 38
save d2 0 28
save d3 0 42
save d4 0 26
merge d40
settle d30
status d30
tick 2
resume d30
finish d30
create d40 0 29 snapshot d0 d2 P 1
write d42 14 512*8a
write d40 16 512*0f 512*32 512*cb 512*b2 512*21 512*ef
status d40
remove d42
remove d24
remove d14
load d4 0 512*00
create d42 0 29 snapshot d0 d4 P 1
tick 3
message d22 0 clearbadblocks
remove d42
save d0 0 29
save d1 0 38
save d2 0 28
save d3 0 42
save d4 0 26
tick 1
write d41 27 512*a8
tick 1
read d44 16 5
read d31 8 6
finish d31
write d42 20 512*fa 512*2c 512*24
read d42 8 6
save d0 0 29
save d1 0 38
save d2 0 28
save d3 0 42
save d4 0 26
load d0 19 512*a9
read d41 4 4
settle d30
read d31 12 3
message d21 0 enable
merge d42
write d31 6 512*40 512*18
settle d31
save d0 0 29
save d1 0 38
save d2 0 28
save d3 0 42
save d4 0 26
settle d42
table d15
resume d31
remove d40
remove d22
remove d12
load d2 0 1*53 1*6e 1*41 1*70 1*01 3*00 1*01 3*00 1*01 26*00 1*20 472*00
create d40 0 29 snapshot d0 d2 P 1
remove d42
remove d24
remove d14
load d4 1 19*00 1*08 492*00
create d42 0 29 snapshot d0 d4 P 1
write d41 15 512*78 512*a1 512*29
table d21
resume d41
save d0 0 29
save d1 0 38
save d2 0 28
save d3 0 42
save d4 0 26
status d30
message d23 0 queryblock 43
read d41 0 4
read d30 15 5
write d42 3 512*ac 512*f4
write d30 4 512*23 512*51 512*a7 512*79 512*5c
merge d41
read d31 0 38
settle d31
read d31 0 38
write d40 7 512*4f 512*96 512*2e
merge d42
settle d31
status d31
tick 0
resume d31
settle d31
status d31
tick 2
resume d31
finish d31
create d41 0 38 snapshot d1 d3 P 1
write d31 7 512*76 512*5a 512*0d
save d0 0 29
save d1 0 38
save d2 0 28
save d3 0 42
save d4 0 26
write d40 9 512*1e 512*2f 512*56 512*c6
resume d41
status d40
remove d40
create d40 0 29 snapshot d0 d2 P 1
finish d31
read d31 24 5
save d3 5 5
remove d41
remove d23
remove d13
load d3 1 1*07 7*00 1*02 5*00 1*05 1*00 1*08 7*00 1*03 7*00 1*09 7*00 1*04 471*00
create d41 0 38 snapshot d1 d3 P 1
save d0 0 29
save d1 0 38
save d2 0 28
save d3 0 42
save d4 0 26
status d30
merge d41
merge d42
settle d31
settle d41
remove d41
create d41 0 38 snapshot d1 d3 P 1
write d31 2 512*4b 512*fa 512*95 512*10 512*3b
write d42 28 512*02 512*e3 512*fe 512*43 512*6f
save d0 0 29
save d1 0 38
save d2 0 28
save d3 0 42
save d4 0 26
message d20 0 addbadblock 5
tick 1x
write d41 1 512*7d 512*10 512*b3 512*14
remove d40
remove d22
remove d12
load d2 0 1*53 1*6e 1*41 1*70 1*01 3*00 1*01 3*00 1*01 26*00 1*20 3*00 1*27 468*00
create d40 0 29 snapshot d0 d2 P 1
disk d10 27
write d30 8 512*f2 512*eb 512*3d 512*a3
resume d30
write d30 11 512*14 512*1a 512*9e 512*2e
save d0 0 29
save d1 0 38
save d2 0 28
save d3 0 42
save d4 0 26
remove d41
create d41 0 38 snapshot d1 d3 P 1
remove d41
remove d23
remove d13
load d3 2 46*07 1*1d 465*07
create d41 0 38 snapshot d1 d3 P 1
write d31 9 512*11 512*2b 512*34 512*1e
disk d0 32
remove d41
remove d23
remove d13
load d3 3 21*08 1*09 490*08
create d41 0 38 snapshot d1 d3 P 1
write d40 13 512*c2 512*06
finish d40
message d24 0 removebadblock 3
merge d42
read d30 0 29
settle d30
read d30 0 29
write d42 4 512*1d 512*c8
write d41 6 512*e2 512*c2 512*1d 512*b5
write d31 5 512*da 512*0d
settle d30
status d30
tick 2
resume d30
settle d30
status d30
tick 2
resume d30
settle d30
status d30
tick 1
resume d30
finish d30
create d42 0 29 snapshot d0 d4 P 1
save d0 0 29
save d1 0 38
save d2 0 28
save d3 0 42
save d4 0 26
merge d40
merge d40
write d42 22 512*ff 512*9f 512*50
write d41 8 512*54 512*c1 512*c2
create d9 0 24 snapshot-merge d0 d2 P 1
write d30 16 512*61 512*b7 512*3b 512*02 512*ae
write d40 15 512*10 512*78
settle d30
status d30
tick 1
resume d30
settle d30
status d30
tick 2
resume d30
finish d30
create d40 0 29 snapshot d0 d2 P 1
remove d41
remove d23
remove d13
load d3 0 512*00
create d41 0 38 snapshot d1 d3 P 1
remove d42
remove d24
remove d14
load d4 0 512*00
create d42 0 29 snapshot d0 d4 P 1
resume d31
write d31 0 512*77 512*42 512*6e 512*f5 512*74 512*20
merge d41
write d41 14 512*94 512*ad
save d0 0 29
save d1 0 38
save d2 0 28
save d3 0 42
save d4 0 26
settle d30
write d41 17 512*eb
finish d30
message d20 0 removebadblock 4
settle d42
write d31 6 512*5d 512*a6 512*d7 512*93 512*13
write d31 15 512*44 512*26
status d40
save d0 0 29
save d1 0 38
save d2 0 28
save d3 0 42
save d4 0 26
write d40 13 512*dd 512*2e 512*8a
remove d42
create d42 0 29 snapshot d0 d4 P 1
remove d42
remove d24
remove d14
load d4 0 1*53 1*6e 1*41 1*70 1*01 3*00 1*01 3*00 1*01 499*00
create d42 0 29 snapshot d0 d4 P 1
read d42 11 1
message d24 0 addbadblock 44
read d6 5 5
save d2 24 2
write d41 12 512*0c 512*57 512*5e 512*52
stop d31
create d31 0 38 snapshot-origin d1
create d40 0 29 snapshot d0 d2 P 1
create d41 0 38 snapshot d1 d3 P 1
create d42 0 29 snapshot d0 d4 P 1
save d0 0 29
save d1 0 38
save d2 0 28
save d3 0 42
save d4 0 26
merge d42
read d30 0 29
read d31 16 3
message d21 0 enable
resume d30
read d41 10 2
table d48
read d42 7 3
settle d30
status d30
tick 1
resume d30
finish d30
create d42 0 29 snapshot d0 d4 P 1
disk d33 44
tick 2
message d21 0 enable
write d41 17 512*b7 512*69
read d30 15 3
write d30 25 512*19 512*11 512*0e 512*3b
write d30 12 512*b6 512*bb 512*e5 512*dd 512*f1 512*65
save d0 0 29
save d1 0 38
save d2 0 28
save d3 0 42
save d4 0 26
read d42 12 3
table d10
create d9 0 24 snapshot-merge d0 d2 P 1
stop d30
create d30 0 29 snapshot-origin d0
create d42 0 29 snapshot d0 d4 P 1
read d41 17 4
settle d30
finish d31
write d31 29 512*3f 512*a7
save d0 0 29
save d1 0 38
save d2 0 28
save d3 0 42
save d4 0 26
create d9 0 24 snapshot d0 d2 P 3
disk d1 44
remove d41
read d31 7 6
read d31 7 2
write d30 11 512*14 512*33
tick 1
merge d40
status d30
write d30 0 512*61 512*86 512*1b 512*d1
finish d41
settle d30
status d30
tick 2
resume d30
finish d30
create d40 0 29 snapshot d0 d2 P 1
save d0 0 29
save d1 0 38
save d2 0 28
save d3 0 42
save d4 0 26
save d1 13 6
tick 1
finish d31
save d46 20 4
write d40 1 512*d8 512*1a 512*b1 512*a5 512*8b 512*2b
write d41 16 512*93 512*5a
write d31 27 512*ca
disk d1 22
save d0 0 29
save d1 0 38
save d2 0 28
save d3 0 42
save d4 0 26
read d31 26 1
message d20 0 listbadblocks
tick 2
remove d40
create d40 0 29 snapshot d0 d2 P 1
remove d40
remove d22
remove d12
load d2 0 1*53 1*6e 1*41 1*70 1*01 3*00 1*01 3*00 1*01 26*00 1*20 3*00 1*27 468*00
create d40 0 29 snapshot d0 d2 P 1
load d4 28 512*f4 512*3b 512*9e 512*96
remove d41
remove d23
remove d13
load d3 0 1*53 1*6e 1*41 1*70 1*01 3*00 1*01 3*00 1*01 30*00 1*03 468*00
create d41 0 38 snapshot d1 d3 P 1
write d30 12 512*a5
save d4 5 1
save d0 0 29
save d1 0 38
save d2 0 28
save d3 0 42
save d4 0 26
remove d41
create d41 0 38 snapshot d1 d3 P 1
read d30 5 1
write d31 50 512*1a 512*ce 512*50
settle d41
write d31 6 512*0a 512*6e
remove d42
remove d24
remove d14
load d4 0 1*53 1*6e 1*41 1*70 1*01 3*00 1*01 3*00 1*01 499*00
create d42 0 29 snapshot d0 d4 P 1
save d4 8 4
remove d41
create d41 0 38 snapshot d1 d3 P 1
save d0 0 29
save d1 0 38
save d2 0 28
save d3 0 42
save d4 0 26
message d23 0 countbadblocks
write d31 14 512*69 512*50 512*b9 512*19
write d40 14 512*82 512*e3 512*9b 512*d7 512*6d 512*3a
read d40 15 4
create d31 0 38 snapshot-origin d1
resume d31
write d31 13 512*ec 512*7e 512*bb 512*d4 512*b6 512*af
write d42 11 512*cf 512*ad 512*32 512*88 512*6a 512*c0
save d0 0 29
save d1 0 38
save d2 0 28
save d3 0 42
save d4 0 26
message d24 0 addbadblock 10
resume d42
status d31
tick 3
merge d40
write d41 20 512*be 512*74 512*d1
settle d30
status d30
tick 1
resume d30
finish d30
create d40 0 29 snapshot d0 d2 P 1
save d2 4 4
write d30 4 512*80 512*5c 512*71 512*1f 512*4b 512*11
disk d1 38
save d0 0 29
save d1 0 38
save d2 0 28
save d3 0 42
save d4 0 26
save d3 6 5
remove d42
write d41 13 512*90 512*5f 512*67 512*9d
write d31 1 512*3e 512*78 512*4f 512*54 512*04 512*ad
write d31 7 512*6e 512*82 512*0a
create d30 0 29 snapshot-origin d0
table d37
message d21 0 enable
save d0 0 29
save d1 0 38
save d2 0 28
save d3 0 42
save d4 0 26
write d41 1 512*55 512*ba 512*1c 512*34
remove d40
remove d22
remove d12
load d2 1 1*25 7*00 1*02 7*00 1*01 7*00 1*03 7*00 1*0d 7*00 1*04 7*00 1*03 7*00 1*05 7*00 1*04 7*00 1*06 7*00 1*06 7*00 1*07 7*00 1*07 7*00 1*08 7*00 1*08 7*00 1*09 7*00 1*09 7*00 1*0a 7*00 1*0a 7*00 1*0b 7*00 1*0b 7*00 1*0c 7*00 1*0c 7*00 1*0d 7*00 1*0d 7*00 1*0e 7*00 1*0e 7*00 1*0f 295*00
create d40 0 29 snapshot d0 d2 P 1
write d13 9 512*7e 512*31 512*1a
settle d30
status d40
message d23 0 addbadblock 8
read d40 5 1
stop d30
create d30 0 29 snapshot-origin d0
create d40 0 29 snapshot d0 d2 P 1
create d41 0 38 snapshot d1 d3 P 1
create d42 0 29 snapshot d0 d4 P 1
save d0 0 29
save d1 0 38
save d2 0 28
save d3 0 42
save d4 0 26
status d41
merge d40
remove d41
tick 3
read d30 12 6
remove d41
create d41 0 38 snapshot d1 d3 P 1
read d41 7 5
write d40 4 512*76 512*7d 512*aa 512*ae 512*cf 512*8c
save d0 0 29
save d1 0 38
save d2 0 28
save d3 0 42
save d4 0 26
tick 2
settle d42
merge d40
write d30 18 512*4a 512*ee 512*9e 512*8b 512*8e 512*1e
table d7
read d41 16 1
settle d30
status d30
tick 1
resume d30
finish d30
create d40 0 29 snapshot d0 d2 P 1
save d0 26 3
remove d42
create d42 0 29 snapshot d0 d4 P 1
remove d42
remove d24
remove d14
load d4 0 1*53 1*6e 1*41 1*70 1*01 3*00 1*01 3*00 1*01 499*00
create d42 0 29 snapshot d0 d4 P 1
read d30 8 6
save d2 11 6
write d31 11 512*08 512*f6 512*77
save d0 0 29
save d1 0 38
save d2 0 28
save d3 0 42
save d4 0 26
write d31 15 512*fb 512*41 512*15
settle d31
write d30 8 512*d8
remove d40
create d40 0 29 snapshot d0 d2 P 1
remove d40
create d40 0 29 snapshot d0 d2 P 1
write d31 2 512*2f 512*f8 512*73 512*c6 512*a7
read d30 13 1
read d31 11 5
write d41 56 512*d8
save d0 0 29
save d1 0 38
save d2 0 28
save d3 0 42
save d4 0 26
merge d41
write d42 12 512*46 512*2d 512*8a 512*5e 512*7b
remove d40
create d40 0 29 snapshot d0 d2 P 1
