# Pseudo-random commands over bare disks: snapshots written, spoiled, damaged and attached again, merges, stops.
# Drawn, and what must be printed was said, by the plain slow machine of `bench/tests/desk_rows`.
disk d0 49
disk d1 54
disk d2 44
disk d3 46
disk d4 40
create d30 0 49 snapshot-origin d0
write d30 0 512*00 512*01 512*02 512*03 512*04 512*05 512*06 512*07 512*08 512*09 512*0a 512*0b 512*0c 512*0d 512*0e 512*0f 512*10 512*11 512*12 512*13 512*14 512*15 512*16 512*17 512*18 512*19 512*1a 512*1b 512*1c 512*1d 512*1e 512*1f 512*20 512*21 512*22 512*23 512*24 512*25 512*26 512*27 512*28 512*29 512*2a 512*2b 512*2c 512*2d 512*2e 512*2f 512*30
create d40 0 49 snapshot d0 d2 P 1
create d41 0 49 snapshot d0 d3 P 1
create d42 0 49 snapshot d0 d4 P 1
write d30 30 512*f0
save d0 0 49
save d1 0 54
save d2 0 44
save d3 0 46
save d4 0 40
read d40 13 3
resume d30
table d4
write d30 17 512*49 512*f4
tick 1
read d41 17 5
message d22 0 enable
disk d1 34
save d0 0 49
save d1 0 54
save d2 0 44
save d3 0 46
save d4 0 40
remove d41
settle d30
write d30 3 512*28 512*c1
message d20 1 enable
save d0 4 5
remove d42
remove d24
remove d14
load d4 0 512*00
create d42 0 49 snapshot d0 d4 P 1
save d2 10 4
message d24 0 addbadblock 14
save d0 0 49
save d1 0 54
save d2 0 44
save d3 0 46
save d4 0 40
merge d42
read d30 0 49
settle d30
status d30
tick 2
resume d30
settle d30
status d30
tick 0
resume d30
finish d30
create d42 0 49 snapshot d0 d4 P 1
write d30 45 512*a2 512*d9 512*5c
disk d2 44
write d30 48 512*60
remove d41
create d41 0 49 snapshot d0 d3 P 1
merge d42
read d30 0 49
settle d30
read d30 0 49
write d30 1 512*40 512*37 512*93 512*72 512*af 512*10
remove d42
message d21 0 addbadblock 45
settle d40
write d41 9 512*a2 512*74
status d30
disk d3 36
settle d30
status d30
tick 2
resume d30
settle d30
status d30
tick 0
resume d30
settle d30
status d30
tick 1
resume d30
finish d30
create d42 0 49 snapshot d0 d4 P 1
remove d42
create d42 0 49 snapshot d0 d4 P 1
tick 1x
save d0 0 49
save d1 0 54
save d2 0 44
save d3 0 46
save d4 0 40
stop d31
create d40 0 49 snapshot d0 d2 P 1
create d41 0 49 snapshot d0 d3 P 1
write d30 7 512*95 512*b9 512*a1 512*57
remove d41
create d41 0 49 snapshot d0 d3 P 1
write d30 13 512*e3 512*6a 512*4b
tick 2
status d40
remove d40
remove d22
remove d12
load d2 0 1*53 1*6e 1*41 1*70 1*01 3*00 1*01 3*00 1*01 499*00
create d40 0 49 snapshot d0 d2 P 1
remove d41
remove d23
remove d13
load d3 0 1*53 1*6e 1*41 1*70 1*01 3*00 1*01 3*00 1*01 499*00
create d41 0 49 snapshot d0 d3 P 1
save d0 0 49
save d1 0 54
save d2 0 44
save d3 0 46
save d4 0 40
write d42 11 512*2f 512*3d 512*62 512*2d 512*f2 512*35
read d42 28 6
write d42 3 512*2c
read d42 0 1
write d29 17 512*75 512*47
message d21 0 addbadblock 20
settle d40
remove d41
remove d23
remove d13
load d3 0 1*53 1*6e 1*41 1*70 1*01 3*00 1*01 3*00 1*01 499*00
create d41 0 49 snapshot d0 d3 P 1
save d0 0 49
save d1 0 54
save d2 0 44
save d3 0 46
save d4 0 40
settle d30
message d24 0 addbadblock 32
resume d41
merge d42
read d30 0 49
create d40 0 49 snapshot d0 d2 P 1
settle d42
settle d30
status d30
tick 1
resume d30
settle d30
status d30
tick 2
resume d30
finish d30
create d42 0 49 snapshot d0 d4 P 1
write d21 3 512*07
status d41
message d20 0 enable
write d41 8 512*ff 512*1d 512*23 512*7a 512*ae
save d0 0 49
save d1 0 54
save d2 0 44
save d3 0 46
save d4 0 40
settle d30
write d30 7 512*1e 512*3e
message d22 0 clearbadblocks
message d5 0 enable
read d42 10 3
save d3 27 6
message d24 0 addbadblock 24
write d42 17 512*36
save d0 0 49
save d1 0 54
save d2 0 44
save d3 0 46
save d4 0 40
read d30 28 3
write d42 37 512*fb 512*f1
resume d30
settle d40
message d21 0 disable
tick 2
write d40 12 512*a0
message d22 0 addbadblock 47
save d0 0 49
save d1 0 54
save d2 0 44
save d3 0 46
save d4 0 40
write d30 13 512*a1 512*7e 512*03 512*2a 512*61 512*3b
read d30 34 3
write d30 24 512*ce 512*60
write d30 7 512*01
finish d40
settle d30
write d43 9 512*7d 512*03 512*7e 512*ed 512*86 512*ec
write d30 3 512*3b 512*6f 512*95
save d0 0 49
save d1 0 54
save d2 0 44
save d3 0 46
save d4 0 40
settle d42
read d41 7 4
read d42 2 5
resume d41
merge d42
read d30 0 49
merge d40
disk d3 34
message d23 0 addbadblock 36
message d20 0 addbadblock 41
merge d41
settle d30
status d30
tick 2
resume d30
settle d30
status d30
tick 0
resume d30
settle d30
status d30
tick 2
resume d30
finish d30
create d42 0 49 snapshot d0 d4 P 1
message d20 0 disable
remove d40
create d40 0 49 snapshot d0 d2 P 1
settle d30
save d0 0 49
save d1 0 54
save d2 0 44
save d3 0 46
save d4 0 40
read d30 24 3
remove d42
create d42 0 49 snapshot d0 d4 P 1
tick 1
status d42
message d21 0 clearbadblocks
write d30 20 512*c4 512*81 512*94 512*c2 512*5d 512*c2
write d40 41 512*4a 512*25
message d20 0 countbadblocks
save d0 0 49
save d1 0 54
save d2 0 44
save d3 0 46
save d4 0 40
remove d40
message d20 0 listbadblocks
tick 1
read d41 2 3
write d41 43 512*7e 512*96 512*a5
write d30 11 512*26 512*41 512*ac 512*ee 512*20 512*12
write d30 16 512*4b 512*bb
write d30 10 512*72 512*e6 512*f6 512*71
save d0 0 49
save d1 0 54
save d2 0 44
save d3 0 46
save d4 0 40
write d30 28 512*74 512*87 512*15 512*7f 512*86 512*b8
remove d41
remove d23
remove d13
load d3 2 512*1e
create d41 0 49 snapshot d0 d3 P 1
tick 2
remove d42
create d42 0 49 snapshot d0 d4 P 1
remove d40
remove d22
remove d12
load d2 3 30*11 1*0c 481*11
create d40 0 49 snapshot d0 d2 P 1
status d33
write d40 22 512*9c 512*e1
write d30 18 512*d5 512*a2 512*d4 512*4d 512*16
save d0 0 49
save d1 0 54
save d2 0 44
save d3 0 46
save d4 0 40
resume d30
resume d41
read d41 10 1
tick 3
message d24 0 addbadblock 11
write d30 34 512*fa
status d42
write d40 17 512*fd 512*b7 512*d3 512*64 512*2b 512*47
save d0 0 49
save d1 0 54
save d2 0 44
save d3 0 46
save d4 0 40
read d30 14 5
write d41 7 512*ad 512*a7 512*9d 512*cf 512*e9
merge d41
read d30 0 49
settle d30
status d30
tick 1
resume d30
finish d30
create d41 0 49 snapshot d0 d3 P 1
status d30
write d40 10 512*e9 512*00
read d40 12 5
message d22 0 addbadblock 18
load d4 36 512*c0 512*f2 512*00
save d0 0 49
save d1 0 54
save d2 0 44
save d3 0 46
save d4 0 40
write d30 63 512*6c
write d30 41 512*27
write d42 27 512*b1 512*43 512*e6 512*9e 512*fe 512*2b
settle d29
merge d41
read d30 0 49
settle d30
read d30 0 49
table d30
create d9 0 24 snapshot-merge d0 d2 P 1
write d30 3 512*ea 512*a7 512*18 512*a0
write d30 30 512*64 512*97 512*fe 512*86 512*0c 512*d0
write d30 36 512*9b 512*72
write d40 2 512*6b 512*83 512*b1 512*d3 512*f5
table d13
settle d30
status d30
tick 0
resume d30
settle d30
status d30
tick 2
resume d30
finish d30
create d41 0 49 snapshot d0 d3 P 1
read d30 45 1
save d1 30 6
read d30 13 5
save d0 0 49
save d1 0 54
save d2 0 44
save d3 0 46
save d4 0 40
write d30 27 512*89 512*13 512*90 512*93 512*64 512*69
write d40 37 512*3b
save d1 3 5
read d40 6 1
save d0 16 1
message d23 0 removebadblock 14
remove d41
create d41 0 49 snapshot d0 d3 P 1
stop d30
create d30 0 49 snapshot-origin d0
create d40 0 49 snapshot d0 d2 P 1
create d42 0 49 snapshot d0 d4 P 1
save d0 0 49
save d1 0 54
save d2 0 44
save d3 0 46
save d4 0 40
write d30 13 512*3f 512*00 512*58
read d30 20 4
resume d42
write d41 17 512*ce 512*a3 512*50 512*c7
message d20 0 enable
remove d40
remove d22
remove d12
load d2 1 1*1e 7*00 1*02 6*00 1*21 1*11 7*00 1*03 7*00 1*12 7*00 1*04 7*00 1*03 7*00 1*05 7*00 1*04 7*00 1*06 7*00 1*2d 7*00 1*07 7*00 1*2e 7*00 1*08 7*00 1*2f 7*00 1*09 7*00 1*30 7*00 1*0a 7*00 1*01 7*00 1*0b 7*00 1*02 7*00 1*0c 7*00 1*05 7*00 1*0d 7*00 1*06 7*00 1*0e 7*00 1*07 7*00 1*0f 7*00 1*08 7*00 1*10 7*00 1*09 7*00 1*11 7*00 1*0a 7*00 1*12 7*00 1*0d 7*00 1*13 7*00 1*0e 7*00 1*14 7*00 1*0f 7*00 1*15 7*00 1*10 7*00 1*16 7*00 1*0c 7*00 1*17 7*00 1*0b 7*00 1*18 7*00 1*18 7*00 1*19 7*00 1*19 7*00 1*1a 7*00 1*26 7*00 1*1b 7*00 1*25 7*00 1*1c 7*00 1*14 7*00 1*1d 7*00 1*15 7*00 1*1e 7*00 1*16 7*00 1*1f 7*00 1*17 7*00 1*20 7*00 1*29 7*00 1*21 7*00
create d40 0 49 snapshot d0 d2 P 1
read d30 30 3
read d30 4 1
save d0 0 49
save d1 0 54
save d2 0 44
save d3 0 46
save d4 0 40
disk d4 42
remove d40
create d40 0 49 snapshot d0 d2 P 1
remove d40
create d40 0 49 snapshot d0 d2 P 1
message d20 0 addbadblock 46
remove d42
remove d24
remove d14
load d4 0 1*53 1*6e 1*41 1*70 1*01 3*00 1*01 3*00 1*01 499*00
create d42 0 49 snapshot d0 d4 P 1
load d2 20 512*45 512*16 512*74 512*ed 512*ce
write d30 13 1024*52
read d30 16 3
merge d41
settle d30
status d30
tick 2
resume d30
finish d30
create d41 0 49 snapshot d0 d3 P 1
save d0 0 49
save d1 0 54
save d2 0 44
save d3 0 46
save d4 0 40
stop d31
create d41 0 49 snapshot d0 d3 P 1
create d42 0 49 snapshot d0 d4 P 1
write d42 11 512*11
write d30 5 512*b9 512*e3 512*21 512*2a
message d21 0 enable
write d40 14 512*60 512*37 512*c7 512*a0
merge d42
merge d41
write d42 26 512*d6 512*22 512*6e 512*f4 512*64
load d0 48 512*7a
read d30 17 5
write d40 1 512*f9 512*54 512*4c
settle d30
write d40 3 512*55 512*2c 512*04 512*80 512*0f 512*e1
settle d30
status d30
tick 0
resume d30
settle d30
status d30
tick 1
resume d30
finish d30
create d41 0 49 snapshot d0 d3 P 1
table d26
save d0 0 49
save d1 0 54
save d2 0 44
save d3 0 46
save d4 0 40
remove d42
remove d24
remove d14
load d4 1 30*00 1*25 481*00
create d42 0 49 snapshot d0 d4 P 1
table d22
load d4 8 512*89 512*cd
read d40 7 2
write d40 5 512*ca 512*73 512*fc
stop d31
create d41 0 49 snapshot d0 d3 P 1
create d42 0 49 snapshot d0 d4 P 1
read d40 45 3
load d23 10 512*93 512*6d 512*68 512*66 512*70
save d0 0 49
save d1 0 54
save d2 0 44
save d3 0 46
save d4 0 40
settle d30
read nosuch 0 0
remove d40
create d40 0 49 snapshot d0 d2 P 1
remove d40
create d40 0 49 snapshot d0 d2 P 1
stop d31
create d40 0 49 snapshot d0 d2 P 1
create d41 0 49 snapshot d0 d3 P 1
create d42 0 49 snapshot d0 d4 P 1
message d23 0 addbadblock 3
save d24 0 5
finish d41
write d41 37 512*e3 512*ff
save d0 0 49
save d1 0 54
save d2 0 44
save d3 0 46
save d4 0 40
remove d42
create d42 0 49 snapshot d0 d4 P 1
remove d42
create d42 0 49 snapshot d0 d4 P 1
write d40 60 512*4e 512*ef 512*32 512*5a 512*54 512*08
merge d41
read d30 0 49
write d30 38 512*45 512*3e 512*87 512*8d 512*53 512*8b
message d20 1 enable
disk d1 24
merge d42
settle d30
settle d40
write d30 21 512*fd 512*94 512*b1 512*4a 512*34
settle d30
status d30
tick 0
resume d30
finish d30
create d41 0 49 snapshot d0 d3 P 1
message d20 0 enable
write d30 21 512*ab
write d42 46 512*9a 512*b9 512*ed
read d30 41 6
merge d41
save d0 0 49
save d1 0 54
save d2 0 44
save d3 0 46
save d4 0 40
write d30 8 512*33 512*aa 512*d9 512*62 512*99
remove d42
create d42 0 49 snapshot d0 d4 P 1
remove d40
remove d22
remove d12
load d2 2 19*1e 1*05 492*1e
create d40 0 49 snapshot d0 d2 P 1
write d41 47 512*3a 512*51
remove d40
remove d22
remove d12
load d2 0 512*00
create d40 0 49 snapshot d0 d2 P 1
message d24 0 clearbadblocks
read d40 16 1
save d4 14 3
save d0 0 49
save d1 0 54
save d2 0 44
save d3 0 46
save d4 0 40
write d42 3 512*d8 512*b3
write d30 8 512*81 512*7e 512*3e 512*1b 512*aa 512*52
save d45 4 6
load d3 12 512*2a 512*03
tick 2
table d47
write d30 41 512*5d 512*ae 512*b1 512*11 512*38 512*da
read d30 42 3
save d0 0 49
save d1 0 54
save d2 0 44
save d3 0 46
save d4 0 40
write d40 12 512*45 512*0b 512*5d
write d30 41 512*61 512*7f 512*a3 512*53 512*48
read nosuch 0 0
read d42 15 4
write d30 43 512*94 512*d9 512*9a 512*2c 512*47 512*a0
stop d31
create d40 0 49 snapshot d0 d2 P 1
create d41 0 49 snapshot d0 d3 P 1
create d42 0 49 snapshot d0 d4 P 1
status d42
remove d40
save d0 0 49
save d1 0 54
save d2 0 44
save d3 0 46
save d4 0 40
remove d41
remove d23
remove d13
load d3 0 512*00
create d41 0 49 snapshot d0 d3 P 1
write d30 1 512*a7 512*37
read d42 49 6
save d3 58 6
load d2 25 512*ba 512*9f 512*b2 512*63
message d20 0 addbadblock 22
save d1 16 5
resume d30
save d0 0 49
save d1 0 54
save d2 0 44
save d3 0 46
save d4 0 40
merge d40
write d30 21 512*36 512*54 512*b0 512*73 512*1b 512*66
message d20 0 addbadblock 24
disk d0 43
status d42
write d30 17 512*12 512*4c 512*77 512*f5 512*06
read d30 45 1
read d30 33 2
settle d30
status d30
tick 2
resume d30
settle d30
status d30
tick 0
resume d30
finish d30
create d40 0 49 snapshot d0 d2 P 1
remove d42
create d42 0 49 snapshot d0 d4 P 1
write d30 12 512*52 512*64 512*9c 512*b7 512*ee
read d30 11 6
remove d42
create d42 0 49 snapshot d0 d4 P 1
remove d42
remove d24
remove d14
load d4 2 15*27 1*0c 496*27
create d42 0 49 snapshot d0 d4 P 1
read d30 39 3
create d40 0 49 snapshot d0 d2 P 1
remove d40
save d0 0 49
save d1 0 54
save d2 0 44
save d3 0 46
save d4 0 40
merge d41
read d41 6 3
resume d30
write d42 13 512*68
settle d30
status d30
tick 0
resume d30
settle d30
status d30
tick 0
resume d30
finish d30
create d41 0 49 snapshot d0 d3 P 1
create d41 0 49 snapshot d0 d3 P 1
write d42 5 512*b9 512*67 512*fb
remove d41
remove d23
remove d13
load d3 0 512*00
create d41 0 49 snapshot d0 d3 P 1
write d40 17 512*be 512*1c 512*c8
write d30 45 512*e9 512*53
write d30 8 512*04 512*72
tick 3
save d0 0 49
save d1 0 54
save d2 0 44
save d3 0 46
save d4 0 40
write d30 9 512*bc 512*15
merge d41
read d30 24 5
remove d42
write d41 32 512*d3 512*a8 512*f3 512*f9
write d30 37 512*b0
remove d40
create d40 0 49 snapshot d0 d2 P 1
remove d40
remove d22
remove d12
load d2 1 1*0c 3*00 1*27 3*00 1*02 7*00 1*0d 7*00 1*03 7*00 1*0e 7*00 1*04 7*00 1*0f 7*00 1*05 7*00 1*10 7*00 1*06 439*00
create d40 0 49 snapshot d0 d2 P 1
settle d30
save d0 0 49
save d1 0 54
save d2 0 44
save d3 0 46
save d4 0 40
write d41 27 512*9c 512*0f 512*1a 512*00
resume d40
load d0 9 512*47 512*5e 512*88 512*16
save d2 9 2
read d30 16 6
table d9
remove d41
remove d23
remove d13
load d3 3 44*2c 1*14 467*2c
create d41 0 49 snapshot d0 d3 P 1
settle d30
save d0 0 49
save d1 0 54
save d2 0 44
save d3 0 46
save d4 0 40
read d30 16 2
table d25
stop d31
create d40 0 49 snapshot d0 d2 P 1
create d41 0 49 snapshot d0 d3 P 1
create d42 0 49 snapshot d0 d4 P 1
read d40 15 2
write d41 5 512*59
status d30
read d42 9 1
message d20 0 queryblock 16
save d0 0 49
save d1 0 54
save d2 0 44
save d3 0 46
save d4 0 40
load d0 26 512*4d 512*00 512*93
status d30
save d0 45 3
remove d42
create d42 0 49 snapshot d0 d4 P 1
remove d42
remove d24
remove d14
load d4 1 1*27 7*00 1*02 7*00 1*28 7*00 1*03 7*00 1*29 7*00 1*04 3*00 1*15 3*00 1*2a 7*00 1*05 7*00 1*14 7*00 1*06 7*00 1*15 7*00 1*07 7*00 1*16 7*00 1*08 7*00 1*17 7*00 1*09 7*00 1*18 7*00 1*0a 7*00 1*19 7*00 1*0b 7*00 1*0b 7*00 1*0c 7*00 1*0c 7*00 1*0d 7*00 1*0d 7*00 1*0e 7*00 1*0e 7*00 1*0f 7*00 1*0f 7*00 1*10 7*00 1*10 7*00 1*11 7*00 1*11 7*00 1*12 7*00 1*0a 7*00 1*13 7*00 1*21 7*00 1*14 7*00 1*12 7*00 1*15 7*00 1*13 7*00 1*16 7*00 1*22 7*00 1*17 7*00 1*2c 7*00 1*18 7*00 1*2b 7*00 1*19 7*00 1*25 7*00 1*1a 7*00 1*26 7*00 1*1b 7*00 1*09 7*00 1*1c 7*00 1*04 7*00 1*1d 7*00 1*03 7*00 1*1e 7*00 1*02 7*00 1*1f 7*00 1*01 7*00 1*20 7*00 1*2d 7*00 1*21 7*00
create d42 0 49 snapshot d0 d4 P 1
resume d30
remove d42
remove d24
remove d14
load d4 0 1*53 1*6e 1*41 1*70 1*01 3*00 1*01 3*00 1*01 499*00
create d42 0 49 snapshot d0 d4 P 1
message d24 0 addbadblock 32
write d30 8 512*aa 512*47 512*b8 512*f2 512*38 512*e9
save d0 0 49
save d1 0 54
save d2 0 44
save d3 0 46
save d4 0 40
write d43 16 512*a9 512*67 512*fd 512*a4 512*d0
read d11 6 4
merge d42
message d20 0 listbadblocks
tick 3
tick 2
write d41 0 512*73 512*25
write d40 2 512*6d
save d0 0 49
save d1 0 54
save d2 0 44
save d3 0 46
save d4 0 40
write d30 1 512*c0
settle d41
remove d42
remove d24
remove d14
load d4 2 15*27 1*0c 5*27 1*22 490*27
create d42 0 49 snapshot d0 d4 P 1
resume d41
message d24 0 clearbadblocks
write d30 24 512*ed 512*c8 512*1a 512*ca 512*bb 512*7f
message d23 0 enable
merge d40
settle d30
status d30
tick 2
resume d30
finish d30
create d40 0 49 snapshot d0 d2 P 1
save d0 0 49
save d1 0 54
save d2 0 44
save d3 0 46
save d4 0 40
write d40 7 512*d5
write d41 7 512*07 512*d5
stop d31
create d41 0 49 snapshot d0 d3 P 1
write d41 3 512*65 512*a2
tick 3
read d41 8 6
stop d31
create d42 0 49 snapshot d0 d4 P 1
table d41
save d0 0 49
save d1 0 54
save d2 0 44
save d3 0 46
save d4 0 40
read d30 13 4
disk d1 31
read d40 12 1
finish d42
write d30 12 512*58 512*77 512*65 512*e3 512*7d 512*1f
message d24 0 queryblock 20
remove d41
create d41 0 49 snapshot d0 d3 P 1
create d9 0 24 snapshot d0 d2 P 3
save d0 0 49
save d1 0 54
save d2 0 44
save d3 0 46
save d4 0 40
merge d42
settle d30
settle d30
status d30
tick 0
resume d30
finish d30
create d42 0 49 snapshot d0 d4 P 1
message d21 0 addbadblock 48
stop d31
create d40 0 49 snapshot d0 d2 P 1
create d41 0 49 snapshot d0 d3 P 1
create d42 0 49 snapshot d0 d4 P 1
