# Pseudo-random commands over bare disks: snapshots of one origin in chunks of 1 to 16 sectors, written, spoiled, damaged and
# attached again, merges, stops.
# Drawn, and what must be printed was said, by the plain slow machine of `bench/tests/desk_rows`.
disk d0 36
disk d1 50
disk d2 100
disk d3 116
disk d4 41
disk d5 25
disk d6 464
disk d7 104
disk d8 58
disk d9 24
create d30 0 36 snapshot-origin d0
write d30 0 512*00 512*01 512*02 512*03 512*04 512*05 512*06 512*07 512*08 512*09 512*0a 512*0b 512*0c 512*0d 512*0e 512*0f 512*10 512*11 512*12 512*13 512*14 512*15 512*16 512*17 512*18 512*19 512*1a 512*1b 512*1c 512*1d 512*1e 512*1f 512*20 512*21 512*22 512*23
create d40 0 36 snapshot d0 d2 P 4
create d41 0 36 snapshot d0 d3 P 4
create d42 0 36 snapshot d0 d4 P 1
create d43 0 36 snapshot d0 d5 P 1
create d44 0 36 snapshot d0 d6 P 16
create d45 0 36 snapshot d0 d7 P 4
create d46 0 36 snapshot d0 d8 P 2
create d47 0 36 snapshot d0 d9 P 1
save d1 6 6
save d0 0 36
save d1 0 50
save d2 0 100
save d3 0 116
save d4 0 41
save d5 0 25
save d6 0 464
save d7 0 104
save d8 0 58
save d9 0 24
write d44 2 512*6c
resume d30
settle d30
write d30 11 512*d3 512*24 512*c5 512*41 512*eb
write d30 30 512*81
write d30 0 512*e5
table d35
write d30 16 512*e7 512*07 512*6d 512*cb 512*a4
save d0 0 36
save d1 0 50
save d2 0 100
save d3 0 116
save d4 0 41
save d5 0 25
save d6 0 464
save d7 0 104
save d8 0 58
save d9 0 24
resume d30
settle d30
settle d30
merge d43
read d30 0 36
settle d30
read d30 0 36
write d42 9 512*93 512*73 512*da 512*cf 512*9b 512*be
message d24 0 addbadblock 10
table d24
write d30 30 512*2c 512*24 512*56 512*cc 512*67
settle d30
status d30
tick 0
resume d30
settle d30
status d30
tick 1
resume d30
finish d30
create d43 0 36 snapshot d0 d5 P 1
write d47 10 512*6a 512*7b
read d42 32 4
load d5 1 512*ed 512*5e 512*bf
merge d40
save d0 0 36
save d1 0 50
save d2 0 100
save d3 0 116
save d4 0 41
save d5 0 25
save d6 0 464
save d7 0 104
save d8 0 58
save d9 0 24
write d30 16 512*70 512*d8 512*14 512*54 512*8c
message d28 0 addbadblock 13
tick 1x
merge d44
write d42 27 512*69
settle d30
status d30
tick 1
resume d30
settle d30
status d30
tick 1
resume d30
finish d30
create d44 0 36 snapshot d0 d6 P 16
write d40 7 512*e3 512*5a 512*a2
message d20 0 addbadblock 32
resume d40
remove d41
remove d23
remove d13
load d3 1 17*00 1*1f 494*00
create d41 0 36 snapshot d0 d3 P 4
save d0 0 36
save d1 0 50
save d2 0 100
save d3 0 116
save d4 0 41
save d5 0 25
save d6 0 464
save d7 0 104
save d8 0 58
save d9 0 24
write d39 11 512*5f 512*a1 512*d3 512*50 512*85 512*69
resume d47
save d7 12 6
create d47 0 36 snapshot d0 d9 P 1
message d22 0 enable
merge d44
read d45 5 3
message d20 0 enable
save d0 0 36
save d1 0 50
save d2 0 100
save d3 0 116
save d4 0 41
save d5 0 25
save d6 0 464
save d7 0 104
save d8 0 58
save d9 0 24
read d46 28 3
status nosuch
read d44 14 5
status d30
finish d46
write d42 9 512*7d
write d44 17 512*f6 512*26 512*be 512*9a 512*73
write d46 33 512*15 512*24 512*8b 512*e0 512*5d 512*90
save d0 0 36
save d1 0 50
save d2 0 100
save d3 0 116
save d4 0 41
save d5 0 25
save d6 0 464
save d7 0 104
save d8 0 58
save d9 0 24
read d30 16 3
read d30 19 5
write d47 10 512*05 512*ca 512*3c 512*e4
create d9 0 8 flakey d0 0 0 0
write d30 14 512*07 512*d5 512*cc 512*ac 512*8c 512*92
finish d30
table d19
resume d45
save d0 0 36
save d1 0 50
save d2 0 100
save d3 0 116
save d4 0 41
save d5 0 25
save d6 0 464
save d7 0 104
save d8 0 58
save d9 0 24
tick 1
remove d44
create d44 0 36 snapshot d0 d6 P 16
remove d43
create d43 0 36 snapshot d0 d5 P 1
remove d43
create d43 0 36 snapshot d0 d5 P 1
remove d40
remove d22
remove d12
load d2 0 1*53 1*6e 1*41 1*70 1*01 3*00 1*01 3*00 1*01 499*00
create d40 0 36 snapshot d0 d2 P 4
settle d46
remove d43
remove d25
remove d15
load d5 0 1*53 1*6e 1*41 1*70 1*01 3*00 1*01 3*00 1*01 499*00
create d43 0 36 snapshot d0 d5 P 1
write d43 10 512*18 512*ff 512*1c 512*0a 512*42 512*79
write d30 23 512*9b 512*38
save d0 0 36
save d1 0 50
save d2 0 100
save d3 0 116
save d4 0 41
save d5 0 25
save d6 0 464
save d7 0 104
save d8 0 58
save d9 0 24
write d30 11 512*0a
write d40 16 512*60 512*16 512*51 512*b1 512*a8
read d30 21 1
save d5 9 5
remove d45
create d45 0 36 snapshot d0 d7 P 4
write d30 24 512*3d 512*5c
write d30 0 512*5f 1024*fd 512*9a 512*88 512*80
message d23 0 queryblock 48
save d0 0 36
save d1 0 50
save d2 0 100
save d3 0 116
save d4 0 41
save d5 0 25
save d6 0 464
save d7 0 104
save d8 0 58
save d9 0 24
table d16
save d3 8 1
remove d45
remove d46
remove d28
remove d18
load d8 0 512*00
create d46 0 36 snapshot d0 d8 P 2
read d30 24 2
table d35
settle d45
write d30 4 512*8b 512*a2 512*5b 512*e8
save d0 0 36
save d1 0 50
save d2 0 100
save d3 0 116
save d4 0 41
save d5 0 25
save d6 0 464
save d7 0 104
save d8 0 58
save d9 0 24
write d45 3 512*25
write d44 18 512*e5
finish d30
save d7 19 4
disk d3 38
save d3 1 1
finish d30
status d30
save d0 0 36
save d1 0 50
save d2 0 100
save d3 0 116
save d4 0 41
save d5 0 25
save d6 0 464
save d7 0 104
save d8 0 58
save d9 0 24
read d43 2 5
tick 3
remove d43
create d43 0 36 snapshot d0 d5 P 1
tick 1
merge d43
disk d6 41
create d44 0 36 snapshot d0 d6 P 16
read d30 2 1
status d30
settle d30
status d30
tick 0
resume d30
settle d30
status d30
tick 1
resume d30
settle d30
status d30
tick 1
resume d30
finish d30
create d43 0 36 snapshot d0 d5 P 1
tick 2
merge d41
read d30 0 36
settle d30
read d30 0 36
disk d4 46
write d30 0 512*cf 512*33 512*3b 512*aa 512*3f
settle d30
status d30
tick 0
resume d30
settle d30
status d30
tick 2
resume d30
settle d30
status d30
tick 2
resume d30
finish d30
create d41 0 36 snapshot d0 d3 P 4
remove d43
remove d25
remove d15
load d5 3 18*cc 1*03 493*cc
create d43 0 36 snapshot d0 d5 P 1
save d0 0 36
save d1 0 50
save d2 0 100
save d3 0 116
save d4 0 41
save d5 0 25
save d6 0 464
save d7 0 104
save d8 0 58
save d9 0 24
remove d44
create d44 0 36 snapshot d0 d6 P 16
write d43 14 512*3f 512*ed 512*eb 512*39 512*0b 512*0d
write d30 16 512*34 512*1a 512*ea 512*c6 512*6b 512*38
write d47 13 512*f3 512*d3 512*ea
merge d46
finish d30
tick 1
status d30
write d44 7 512*bc 512*05 512*25 512*5c 512*80 512*f5
read d30 16 1
settle d30
status d30
tick 1
resume d30
finish d30
create d46 0 36 snapshot d0 d8 P 2
create d30 0 36 snapshot-origin d0
merge d44
read d30 0 36
settle d30
read d30 0 36
read d30 12 1
merge d43
settle d46
settle d30
status d30
tick 2
resume d30
settle d30
status d30
tick 1
resume d30
finish d30
create d44 0 36 snapshot d0 d6 P 16
settle d30
save d0 0 36
save d1 0 50
save d2 0 100
save d3 0 116
save d4 0 41
save d5 0 25
save d6 0 464
save d7 0 104
save d8 0 58
save d9 0 24
save d6 16 4
remove d44
create d44 0 36 snapshot d0 d6 P 16
remove d44
remove d26
remove d16
load d6 0 1*53 1*6e 1*41 1*70 1*01 3*00 1*01 3*00 1*01 499*00
create d44 0 36 snapshot d0 d6 P 16
tick 3
disk d8 45
merge d43
status d41
table d9
save d5 9 2
settle d30
status d30
tick 0
resume d30
finish d30
create d43 0 36 snapshot d0 d5 P 1
tick 1
read d30 5 3
write d30 6 512*b4 512*99 512*a8 512*3f
save d0 0 36
save d1 0 50
save d2 0 100
save d3 0 116
save d4 0 41
save d5 0 25
save d6 0 464
save d7 0 104
save d8 0 58
save d9 0 24
write d30 11 512*22 512*43 512*9e 512*2e 512*da 512*39
status d47
write d30 10 512*30 512*bc 512*be 512*34 512*8f 512*63
settle d30
status d0
merge d43
settle d30
status d30
tick 0
resume d30
settle d30
status d30
tick 2
resume d30
finish d30
create d43 0 36 snapshot d0 d5 P 1
remove d45
create d45 0 36 snapshot d0 d7 P 4
remove d45
remove d27
remove d17
load d7 0 512*00
create d45 0 36 snapshot d0 d7 P 4
message d20 0 listbadblocks
save d0 0 36
save d1 0 50
save d2 0 100
save d3 0 116
save d4 0 41
save d5 0 25
save d6 0 464
save d7 0 104
save d8 0 58
save d9 0 24
write d42 8 512*bb 512*f1
save d5 3 6
write d41 16 512*49 512*d8 512*3e 512*64 512*52
merge d42
read d30 0 36
settle d30
read d30 0 36
read d42 16 6
write d30 0 512*c2 512*9e 512*bb 512*b4 512*e2
resume d43
save d4 1 5
tick 1
settle d30
status d30
tick 1
resume d30
finish d30
create d42 0 36 snapshot d0 d4 P 1
merge d46
read d30 0 36
settle d30
read d30 0 36
settle d30
status d30
tick 1
resume d30
settle d30
status d30
tick 0
resume d30
settle d30
status d30
tick 1
resume d30
finish d30
create d46 0 36 snapshot d0 d8 P 2
write d40 16 512*fb 512*a0 512*04 512*81 512*4e 512*57
settle d44
write d34 10 512*87 512*bf
save d0 0 36
save d1 0 50
save d2 0 100
save d3 0 116
save d4 0 41
save d5 0 25
save d6 0 464
save d7 0 104
save d8 0 58
save d9 0 24
read d30 9 3
status d30
merge d40
disk d8 46
message d23 0 queryblock 47
save d3 63 1
merge d44
read d30 0 36
settle d30
read d30 0 36
merge d40
message d20 0 countbadblocks
message d21 0 addbadblock 49
finish d30
message d28 0 enable
write d30 6 512*b9 512*6d 512*2f 512*b3 512*0c 512*4d
settle d30
settle d30
status d30
tick 1
resume d30
settle d30
status d30
tick 2
resume d30
finish d30
create d44 0 36 snapshot d0 d6 P 16
remove d41
create d41 0 36 snapshot d0 d3 P 4
save d0 0 36
save d1 0 50
save d2 0 100
save d3 0 116
save d4 0 41
save d5 0 25
save d6 0 464
save d7 0 104
save d8 0 58
save d9 0 24
read d30 17 1
merge d47
save d5 16 3
write d30 16 512*c5 512*22 512*18
merge d44
tick 3
settle d30
status d30
tick 1
resume d30
finish d30
create d47 0 36 snapshot d0 d9 P 1
remove d43
create d43 0 36 snapshot d0 d5 P 1
remove d43
create d43 0 36 snapshot d0 d5 P 1
write d30 18 512*66 512*d4 512*eb
remove d45
create d45 0 36 snapshot d0 d7 P 4
remove d45
remove d27
remove d17
load d7 0 1*53 1*6e 1*41 1*70 1*01 3*00 1*01 3*00 1*01 499*00
create d45 0 36 snapshot d0 d7 P 4
create d9 0 24 snapshot-merge d0 d2 P 1
remove d43
remove d25
remove d15
load d5 0 1*53 1*6e 1*41 1*70 1*01 3*00 1*01 3*00 1*01 499*00
create d43 0 36 snapshot d0 d5 P 1
message d22 0 queryblock 18
save d0 0 36
save d1 0 50
save d2 0 100
save d3 0 116
save d4 0 41
save d5 0 25
save d6 0 464
save d7 0 104
save d8 0 58
save d9 0 24
message d23 0 removebadblock 3
remove d47
remove d47
create d47 0 36 snapshot d0 d9 P 1
read d30 31 1
settle d43
disk d27 28
disk d4 40
settle d46
save d0 0 36
save d1 0 50
save d2 0 100
save d3 0 116
save d4 0 41
save d5 0 25
save d6 0 464
save d7 0 104
save d8 0 58
save d9 0 24
save d0 11 6
message d29 0 removebadblock 46
remove d47
remove d29
remove d19
load d9 0 512*00
create d47 0 36 snapshot d0 d9 P 1
finish d41
message d29 0 addbadblock 34
settle d30
save d3 54 6
write d30 1 512*84 512*4e 512*47 512*86 512*f5 512*71
save d0 0 36
save d1 0 50
save d2 0 100
save d3 0 116
save d4 0 41
save d5 0 25
save d6 0 464
save d7 0 104
save d8 0 58
save d9 0 24
message d28 0 addbadblock 29
read d47 12 6
save d1 5 5
table d36
write d30 10 512*1a 512*73 512*ef
resume d44
stop d31
create d42 0 36 snapshot d0 d4 P 1
create d43 0 36 snapshot d0 d5 P 1
create d44 0 36 snapshot d0 d6 P 16
create d45 0 36 snapshot d0 d7 P 4
create d46 0 36 snapshot d0 d8 P 2
create d47 0 36 snapshot d0 d9 P 1
write d30 20 512*df 512*4f 512*ab 512*e5 512*72
save d0 0 36
save d1 0 50
save d2 0 100
save d3 0 116
save d4 0 41
save d5 0 25
save d6 0 464
save d7 0 104
save d8 0 58
save d9 0 24
read d47 26 1
write d30 34 512*78
disk d5 24
stop d31
create d41 0 36 snapshot d0 d3 P 4
create d43 0 36 snapshot d0 d5 P 1
create d44 0 36 snapshot d0 d6 P 16
create d45 0 36 snapshot d0 d7 P 4
create d46 0 36 snapshot d0 d8 P 2
create d47 0 36 snapshot d0 d9 P 1
write d41 1 512*d5 512*a9
status d45
create d9 0 8 flakey d0 0 0 0
merge d45
read d30 0 36
settle d30
read d30 0 36
read d47 5 2
settle d43
disk d0 21
save d9 9 2
write d30 16 512*31
message d23 0 queryblock 11
write d29 14 512*8a
settle d30
status d30
tick 1
resume d30
finish d30
create d45 0 36 snapshot d0 d7 P 4
save d0 0 36
save d1 0 50
save d2 0 100
save d3 0 116
save d4 0 41
save d5 0 25
save d6 0 464
save d7 0 104
save d8 0 58
save d9 0 24
read d30 1 5
status d46
write d44 18 512*f2 512*e4
read d44 28 4
tick 2
save d6 61 1
message d29 0 enable
finish d30
save d0 0 36
save d1 0 50
save d2 0 100
save d3 0 116
save d4 0 41
save d5 0 25
save d6 0 464
save d7 0 104
save d8 0 58
save d9 0 24
write d30 6 512*f2 512*5c 512*8c 512*31
write d30 17 512*89 512*8e
read d30 14 1
read d30 1 6
write d41 61 512*73 512*1b
write d18 4 512*e4 512*93 512*cc 512*16
load d5 2 512*4c 512*68
message d20 0 clearbadblocks
save d0 0 36
save d1 0 50
save d2 0 100
save d3 0 116
save d4 0 41
save d5 0 25
save d6 0 464
save d7 0 104
save d8 0 58
save d9 0 24
remove d47
create d47 0 36 snapshot d0 d9 P 1
remove d47
create d47 0 36 snapshot d0 d9 P 1
settle d30
message d20 1 enable
write d42 11 512*e3 512*74 512*33 512*a3
write d47 23 512*35 512*0e 512*79 512*b0
read d31 43 3
write d47 6 512*5e 512*c3 512*4b
remove d41
remove d23
remove d13
load d3 0 512*00
create d41 0 36 snapshot d0 d3 P 4
save d0 0 36
save d1 0 50
save d2 0 100
save d3 0 116
save d4 0 41
save d5 0 25
save d6 0 464
save d7 0 104
save d8 0 58
save d9 0 24
merge d41
read d30 0 36
status d42
write d44 22 512*70 512*22 512*2d
resume d30
load d1 31 512*e4 512*c2 512*7e 512*c7
status d44
settle d30
status d30
tick 2
resume d30
finish d30
create d41 0 36 snapshot d0 d3 P 4
merge d44
read d30 0 36
settle d30
read d30 0 36
read d44 4 1
read d30 0
read d42 16 3
write d30 0 512*e0 512*84
write d30 6 512*12 512*ab 512*f2 512*f8
settle d30
settle d30
status d30
tick 0
resume d30
finish d30
create d44 0 36 snapshot d0 d6 P 16
remove d41
remove d23
remove d13
load d3 0 1*53 1*6e 1*41 1*70 1*01 3*00 1*01 3*00 1*01 499*00
create d41 0 36 snapshot d0 d3 P 4
status d44
write d30 13 512*d8
read d30 16 4
save d5 5 4
read d30 51 2
save d0 0 36
save d1 0 50
save d2 0 100
save d3 0 116
save d4 0 41
save d5 0 25
save d6 0 464
save d7 0 104
save d8 0 58
save d9 0 24
table d38
write d45 11 512*95 512*8b 512*e8 512*00 512*fc 512*fa
merge d45
read d30 0 36
settle d30
read d30 0 36
read d30 3 1
write d44 2 512*b4 512*13 512*9a 512*3b
status d30
write d45 8 512*52 512*fe 512*80
read d30 14 2
write d44 21 512*39 512*74 512*d6 512*21 512*12
remove d41
settle d30
status d30
tick 1
resume d30
settle d30
status d30
tick 0
resume d30
finish d30
create d45 0 36 snapshot d0 d7 P 4
message d29 0 addbadblock 3
message d25 0 disable
status d30
stop d30
create d30 0 36 snapshot-origin d0
create d41 0 36 snapshot d0 d3 P 4
create d42 0 36 snapshot d0 d4 P 1
create d43 0 36 snapshot d0 d5 P 1
create d44 0 36 snapshot d0 d6 P 16
create d45 0 36 snapshot d0 d7 P 4
create d46 0 36 snapshot d0 d8 P 2
create d47 0 36 snapshot d0 d9 P 1
read d30 28 1
save d0 0 36
save d1 0 50
save d2 0 100
save d3 0 116
save d4 0 41
save d5 0 25
save d6 0 464
save d7 0 104
save d8 0 58
save d9 0 24
merge d47
load d6 63 512*ef 512*61
write d30 14 512*7e 512*25 512*2f 512*f3 512*7c
write d30 0 512*37 512*b9 512*86 512*fd 512*df
remove d43
create d43 0 36 snapshot d0 d5 P 1
remove d43
remove d25
remove d15
load d5 1 1*20 7*00 1*02 7*00 1*21 7*00 1*03 7*00 1*22 4*00 1*25 2*00 1*04 7*00 1*23 7*00 1*05 7*00 1*14 7*00 1*06 7*00 1*15 7*00 1*07 7*00 1*16 7*00 1*08 7*00 1*17 7*00 1*09 7*00 1*10 7*00 1*0a 7*00 1*11 7*00 1*0b 7*00 1*12 7*00 1*0c 7*00 1*13 7*00 1*0d 15*00 1*0e 7*00 1*01 7*00 1*0f 7*00 1*02 7*00 1*10 7*00 1*03 7*00 1*11 7*00 1*1c 7*00 1*12 7*00 1*1d 7*00 1*13 7*00 1*1e 7*00 1*14 7*00 1*1f 7*00 1*15 7*00 1*0c 7*00 1*16 7*00 1*0d 7*00 1*17 7*00 1*0e 7*00 1*18 151*00
create d43 0 36 snapshot d0 d5 P 1
merge d44
message d22 0 queryblock 11
write d30 27 512*21 512*48 512*fc 512*b4 512*30
save d0 0 36
save d1 0 50
save d2 0 100
save d3 0 116
save d4 0 41
save d5 0 25
save d6 0 464
save d7 0 104
save d8 0 58
save d9 0 24
message d21 0 addbadblock 23
write d30 6 512*93 512*b6 512*aa 512*eb 512*82 512*b8
tick 2
read d30 9 4
merge d47
remove d45
remove d27
remove d17
load d7 0 512*00
create d45 0 36 snapshot d0 d7 P 4
remove d45
create d45 0 36 snapshot d0 d7 P 4
finish d30
save d0 0 36
save d1 0 50
save d2 0 100
save d3 0 116
save d4 0 41
save d5 0 25
save d6 0 464
save d7 0 104
save d8 0 58
save d9 0 24
message d21 0 addbadblock 7
read d43 19 1
finish d30
read d47 11 2
merge d47
read d45 13 4
message d25 0 addbadblock 0
merge d43
write d45 3 512*61 512*b9 512*75 512*33 512*25 512*ff
settle d45
resume d45
write d44 3 512*28 512*6e 512*40 512*f4 512*d7 512*46
resume d30
load d8 34 512*51 512*d9
settle d30
status d30
tick 0
resume d30
finish d30
create d43 0 36 snapshot d0 d5 P 1
save d0 0 36
save d1 0 50
save d2 0 100
save d3 0 116
save d4 0 41
save d5 0 25
save d6 0 464
save d7 0 104
save d8 0 58
save d9 0 24
message d20 0 addbadblock 48
write d42 0 512*fa 512*0a
write d30 7 512*ca 512*a7 512*dd
merge d43
read d40 1 4
read d30 26 2
settle d30
status d30
tick 2
resume d30
settle d30
status d30
tick 2
resume d30
settle d30
status d30
tick 0
resume d30
finish d30
create d43 0 36 snapshot d0 d5 P 1
write d30 12 512*24 512*5a 512*80 512*ae 512*e0 512*9d
remove d40
remove d22
remove d12
load d2 0 512*00
create d40 0 36 snapshot d0 d2 P 4
status d47
