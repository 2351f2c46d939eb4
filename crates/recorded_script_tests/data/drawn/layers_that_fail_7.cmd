# Pseudo-random commands over layers that fail: snapshots written, spoiled, stale, attached again, merges that fail and go on.
# Drawn, and what must be printed was said, by the plain slow machine of `bench/tests/desk_rows`.
disk d0 31
disk d1 45
create d21 0 45 dust d1 0 512
disk d2 20
create d12 0 19 flakey d2 1 6 1
create d22 0 19 dust d12 0 512
disk d3 47
create d13 0 45 flakey d3 2 3 2 1 error_writes
disk d4 43
create d14 0 41 flakey d4 2 4 1
create d24 0 41 dust d14 0 1024
create d30 0 31 snapshot-origin d0
write d30 0 512*00 512*01 512*02 512*03 512*04 512*05 512*06 512*07 512*08 512*09 512*0a 512*0b 512*0c 512*0d 512*0e 512*0f 512*10 512*11 512*12 512*13 512*14 512*15 512*16 512*17 512*18 512*19 512*1a 512*1b 512*1c 512*1d 512*1e
create d40 0 31 snapshot d0 d22 P 1
create d41 0 31 snapshot d0 d13 P 1
create d42 0 31 snapshot d0 d24 P 1
table d4
save d0 0 31
save d1 0 45
save d2 0 20
save d3 0 47
save d4 0 43
write d40 7 512*e5
remove d40
remove d22
remove d12
load d2 1 1*53 1*6e 1*41 1*70 1*01 3*00 1*01 3*00 1*01 5*00 1*14 493*00
create d12 0 19 flakey d2 1 6 1
create d22 0 19 dust d12 0 512
create d40 0 31 snapshot d0 d22 P 1
remove d42
remove d24
remove d14
load d4 0 1024*00 1*53 1*6e 1*41 1*70 1*01 3*00 1*01 3*00 1*01 499*00
create d14 0 41 flakey d4 2 4 1
create d24 0 41 dust d14 0 1024
create d42 0 31 snapshot d0 d24 P 1
read d42 4 1
write d30 6 512*63 512*ec 512*1d 512*5f 512*c0
stop d31
create d41 0 31 snapshot d0 d13 P 1
create d42 0 31 snapshot d0 d24 P 1
save d0 2 1
write d30 17 512*11 512*aa 512*25
save d0 0 31
save d1 0 45
save d2 0 20
save d3 0 47
save d4 0 43
save d3 8 3
status d5
remove d41
remove d23
remove d13
load d3 0 1024*00 1*53 1*6e 1*41 1*70 1*01 3*00 1*01 3*00 1*01 499*00
create d13 0 45 flakey d3 2 3 2 1 error_writes
create d41 0 31 snapshot d0 d13 P 1
tick 3
write d30 10 512*41 512*c1 512*f8 512*15
load d3 12 512*f7 512*5a 512*a7 512*96 512*9a
finish d42
save d3 13 6
save d0 0 31
save d1 0 45
save d2 0 20
save d3 0 47
save d4 0 43
write d41 0 512*54
remove d41
remove d23
remove d13
load d3 0 1536*00
create d13 0 45 flakey d3 2 3 2 1 error_writes
create d41 0 31 snapshot d0 d13 P 1
load d2 8 512*d2
merge d40
read d30 0 31
settle d30
read d30 0 31
read d30 21 1
save d3 31 3
settle d30
table d46
tick 1
read d30 6 5
settle d30
status d30
tick 0
resume d30
settle d30
status d30
tick 1
resume d30
settle d30
status d30
tick 0
resume d30
finish d30
create d40 0 31 snapshot d0 d22 P 1
read d30 7 1
write d30 5 512*9e 512*1a 512*1b 512*af 512*9f
write d42 9 512*0d 512*89 512*51 512*e5
tick 1
save d0 0 31
save d1 0 45
save d2 0 20
save d3 0 47
save d4 0 43
load d3 11 512*e6 512*80 512*02 512*34
write d40 1 512*d7 512*c8 512*39 512*c7 512*9c 512*57
merge d41
read d30 0 31
write d30 12 512*76 512*e1 512*b4 512*4c
load d4 10 512*20 512*dd 512*13
settle d30
status d30
tick 0
resume d30
settle d30
status d30
tick 1
resume d30
settle d30
status d30
tick 1
resume d30
finish d30
create d41 0 31 snapshot d0 d13 P 1
save d0 25 4
read d42 8 3
status d42
tick 3
merge d40
save d0 0 31
save d1 0 45
save d2 0 20
save d3 0 47
save d4 0 43
save d1 4 6
save d5 6 5
read d42 0 1
write d40 8 512*13 512*40 512*da
write d40 6 512*d1 512*08 512*50 512*56 512*8f 512*52
message d29 0 removebadblock 37
write d10 10 512*97
stop d31
create d42 0 31 snapshot d0 d24 P 1
save d0 0 31
save d1 0 45
save d2 0 20
save d3 0 47
save d4 0 43
write d30 4 512*a3 512*c1 512*89 512*cb 512*9a 512*2a
stop d31
create d41 0 31 snapshot d0 d13 P 1
read d42 1 6
read d30 9 2
read d41 1 5
read d7 7 6
create d3 0 8 snapshot d30 d23 P 4
message d24 0 enable
save d0 0 31
save d1 0 45
save d2 0 20
save d3 0 47
save d4 0 43
create d41 0 31 snapshot d0 d13 P 1
write d40 13 512*64
remove d42
remove d24
remove d14
load d4 3 1*06 7*00 1*02 7*00 1*07 7*00 1*03 7*00 1*08 2*00 1*14 4*00 1*04 7*00 1*09 7*00 1*05 7*00 1*0a 7*00 1*06 7*00 1*11 7*00 1*07 7*00 1*12 7*00 1*08 7*00 1*13 7*00 1*09 7*00 1*0b 7*00 1*0a 7*00 1*0c 7*00 1*0b 7*00 1*0d 7*00 1*0c 7*00 1*05 7*00 1*0d 7*00 1*04 7*00 1*0e 311*00
create d14 0 41 flakey d4 2 4 1
create d24 0 41 dust d14 0 1024
create d42 0 31 snapshot d0 d24 P 1
write d30 0 512*d3 512*a0 512*5d 512*06
settle d30
status d42
finish d42
remove d40
save d0 0 31
save d1 0 45
save d2 0 20
save d3 0 47
save d4 0 43
merge d41
read d30 0 31
write d41 0 512*ba 512*31 512*d1 512*ad
settle d30
status d30
tick 2
resume d30
finish d30
create d41 0 31 snapshot d0 d13 P 1
finish d41
message d22 0 queryblock 36
finish d6
write d30 10 512*ce 512*6c 512*1f
message d23 0 countbadblocks
finish d42
write d42 14 512*a3 512*1a 512*90 512*11 512*15
save d0 0 31
save d1 0 45
save d2 0 20
save d3 0 47
save d4 0 43
save d1 7 6
message d20 0 addbadblock 38
merge d41
write d30 9 512*08 512*0f
write d30 0 512*6b
read d42 10 6
read d30 1 6
stop d30
create d30 0 31 snapshot-origin d0
create d40 0 31 snapshot d0 d22 P 1
create d41 0 31 snapshot d0 d13 P 1
create d42 0 31 snapshot d0 d24 P 1
save d0 0 31
save d1 0 45
save d2 0 20
save d3 0 47
save d4 0 43
save d2 15 5
remove d42
remove d24
remove d14
load d4 3 1*06 7*00 1*02 7*00 1*07 7*00 1*03 7*00 1*08 1*00 1*04 1*14 4*00 1*04 7*00 1*09 7*00 1*05 7*00 1*0a 7*00 1*06 7*00 1*11 7*00 1*07 7*00 1*12 7*00 1*08 7*00 1*13 7*00 1*09 7*00 1*0b 7*00 1*0a 7*00 1*0c 7*00 1*0b 7*00 1*0d 7*00 1*0c 7*00 1*05 7*00 1*0d 7*00 1*04 7*00 1*0e 311*00
create d14 0 41 flakey d4 2 4 1
create d24 0 41 dust d14 0 1024
create d42 0 31 snapshot d0 d24 P 1
write d30 28 512*51 512*ec 512*3b
read d42 15 4
save d0 9 1
create d3 0 14 error
read d42 2 1
save d2 5 5
save d0 0 31
save d1 0 45
save d2 0 20
save d3 0 47
save d4 0 43
read d30 36 5
message d20 0 addbadblock 2
create d21 0 45 dust d1 0 512
create d21 0 45 dust d1 0 512
remove d42
remove d24
remove d14
load d4 0 1536*00
create d14 0 41 flakey d4 2 4 1
create d24 0 41 dust d14 0 1024
create d42 0 31 snapshot d0 d24 P 1
remove d40
remove d22
remove d12
load d2 4 27*06 1*05 484*06
create d12 0 19 flakey d2 1 6 1
create d22 0 19 dust d12 0 512
create d40 0 31 snapshot d0 d22 P 1
merge d42
read d42 1 4
save d0 0 31
save d1 0 45
save d2 0 20
save d3 0 47
save d4 0 43
stop d30
create d30 0 31 snapshot-origin d0
create d40 0 31 snapshot d0 d22 P 1
create d41 0 31 snapshot d0 d13 P 1
write d30 10 512*de 512*bf
merge d42
settle d30
status d30
tick 0
resume d30
settle d30
status d30
tick 2
resume d30
settle d30
status d30
tick 2
resume d30
finish d30
create d42 0 31 snapshot d0 d24 P 1
merge d42
frobnicate d30
write d41 27 512*ca 512*e5 512*b1 512*14
settle d30
status d30
tick 0
resume d30
settle d30
status d30
tick 1
resume d30
settle d30
status d30
tick 1
resume d30
finish d30
create d42 0 31 snapshot d0 d24 P 1
resume d30
finish d30
disk d3 48
write d40 1 512*f2 512*b3
save d0 0 31
save d1 0 45
save d2 0 20
save d3 0 47
save d4 0 43
tick 2
read d30 11 6
read d41 17 2
message d21 0 countbadblocks
stop d31
create d40 0 31 snapshot d0 d22 P 1
create d41 0 31 snapshot d0 d13 P 1
create d42 0 31 snapshot d0 d24 P 1
tick 3
save d3 14 2
read d42 0 3
save d0 0 31
save d1 0 45
save d2 0 20
save d3 0 47
save d4 0 43
merge d41
read d30 10 6
remove d24
write d41 10 512*b9 512*ef 512*b5 512*9b 512*d6 512*b8
remove d42
create d42 0 31 snapshot d0 d24 P 1
remove d42
remove d24
remove d14
load d4 3 9*00 1*1d 502*00
create d14 0 41 flakey d4 2 4 1
create d24 0 41 dust d14 0 1024
create d42 0 31 snapshot d0 d24 P 1
message d20 0 listbadblocks
write d42 12 512*b9 512*52 512*e9 512*c8 512*09
write d42 9 512*5d
save d0 0 31
save d1 0 45
save d2 0 20
save d3 0 47
save d4 0 43
read d30 5 3
write d30 12 512*a5 512*7c 512*e0 512*f5
message d24 0 addbadblock 36
remove d42
remove d24
remove d14
load d4 3 9*00 1*1d 36*00 1*01 465*00
create d14 0 41 flakey d4 2 4 1
create d24 0 41 dust d14 0 1024
create d42 0 31 snapshot d0 d24 P 1
write d30 12 512*bf 512*e6 512*8d 512*28
read d30 12 3
remove d21
write d30 7 512*6f 512*26
save d0 0 31
save d1 0 45
save d2 0 20
save d3 0 47
save d4 0 43
write d33 5 512*07 512*8b 512*04
write d30 28 512*2c 512*50
write d40 17 512*9b 512*48 512*8d 512*98 512*17
load d4 28 512*9f
create d22 0 19 dust d12 0 512
write d30 9 512*16 512*98 512*86 512*0d 512*30 512*b4
write d42 0 512*4d 512*84 512*d2 512*ee
read d30 15 3
save d0 0 31
save d1 0 45
save d2 0 20
save d3 0 47
save d4 0 43
create d12 0 19 flakey d2 1 6 1
remove d41
remove d23
remove d13
load d3 2 1*53 1*6e 1*41 1*70 1*01 3*00 1*01 3*00 1*01 17*00 1*03 481*00
create d13 0 45 flakey d3 2 3 2 1 error_writes
create d41 0 31 snapshot d0 d13 P 1
write d41 0 512*cd
settle d41
write d30 5 512*8c 512*84
read d30 10 6
write d30 4 512*b8 512*c4
read d30 11 3
save d0 0 31
save d1 0 45
save d2 0 20
save d3 0 47
save d4 0 43
message d22 0 removebadblock 43
write d30 4 512*b8
create d42 0 31 snapshot d0 d24 P 1
write d30 28 512*2b 512*88
write d40 6 512*35 512*1b 512*b1 512*c4 512*8e
read d40 2 3
status d30
disk d2 30
save d0 0 31
save d1 0 45
save d2 0 20
save d3 0 47
save d4 0 43
remove d42
remove d24
remove d14
load d4 0 1536*00
create d14 0 41 flakey d4 2 4 1
create d24 0 41 dust d14 0 1024
create d42 0 31 snapshot d0 d24 P 1
read d42 2 1
save d30 5 3
stop d30
create d30 0 31 snapshot-origin d0
create d40 0 31 snapshot d0 d22 P 1
create d41 0 31 snapshot d0 d13 P 1
create d42 0 31 snapshot d0 d24 P 1
disk d3 26
merge d41
save d0 14 2
settle d30
status d30
tick 0
resume d30
settle d30
status d30
tick 0
resume d30
settle d30
status d30
tick 0
resume d30
finish d30
create d41 0 31 snapshot d0 d13 P 1
write d30 2 512*d1 512*44 512*bc 512*16 512*67
status d42
save d0 0 31
save d1 0 45
save d2 0 20
save d3 0 47
save d4 0 43
status d30
write d30 1 512*ad 512*d0 512*f1 512*cc 512*55 512*ef
merge d40
read d30 4 3
write d30 9 512*62 512*35 512*0b 512*b7
write d41 22 512*5a 512*c7
settle d30
status d30
tick 1
resume d30
settle d30
status d30
tick 2
resume d30
settle d30
status d30
tick 2
resume d30
finish d30
create d40 0 31 snapshot d0 d22 P 1
stop d31
create d41 0 31 snapshot d0 d13 P 1
create d42 0 31 snapshot d0 d24 P 1
write d42 12 512*66 512*b0 512*7a 512*59
write d30 11 512*51
merge d40
read d42 11 5
write d41 6 512*b8 512*f5 512*ff 512*1c 512*d6 512*86
load d2 4 512*74
finish d40
merge d42
settle d30
status d30
tick 0
resume d30
settle d30
status d30
tick 2
resume d30
settle d30
status d30
tick 1
resume d30
finish d30
create d40 0 31 snapshot d0 d22 P 1
tick 1x
save d0 0 31
save d1 0 45
save d2 0 20
save d3 0 47
save d4 0 43
save d28 2 6
status d40
resume d30
message d23 0 removebadblock 38
disk d1 43
save d3 5 6
save d2 25 6
tick 1
save d0 0 31
save d1 0 45
save d2 0 20
save d3 0 47
save d4 0 43
write d30 12 512*1c 512*08
remove d40
create d40 0 31 snapshot d0 d22 P 1
remove d40
create d40 0 31 snapshot d0 d22 P 1
write d30 10 512*28 512*ed 512*13 512*50 512*b5 512*04
write d30 8 512*cc 512*17 512*95
merge d40
remove d42
create d42 0 31 snapshot d0 d24 P 1
remove d42
create d42 0 31 snapshot d0 d24 P 1
remove d41
remove d23
remove d13
load d3 0 1536*00
create d13 0 45 flakey d3 2 3 2 1 error_writes
create d41 0 31 snapshot d0 d13 P 1
remove d40
create d40 0 31 snapshot d0 d22 P 1
save d0 0 31
save d1 0 45
save d2 0 20
save d3 0 47
save d4 0 43
message d21 0 enable
read d30 16 1
message d21 0 countbadblocks
message d24 0 addbadblock 41
message d22 0 addbadblock 35
read d40 5 1
message d20 0 enable
create d13 0 45 flakey d3 2 3 2 1 error_writes
save d0 0 31
save d1 0 45
save d2 0 20
save d3 0 47
save d4 0 43
read d41 6 1
status d42
merge d42
status d30
settle d30
settle d30
status d30
tick 1
resume d30
settle d30
status d30
tick 0
resume d30
finish d30
create d42 0 31 snapshot d0 d24 P 1
read d42 19 3
status d30
write d30 20 512*79 512*22 512*ba 512*2c 512*7e
tick 3
merge d40
message d22 0 addbadblock 2
settle d30
load d4 16 512*3a 512*59 512*7a 512*3c
tick 1
write d30 8 512*4a 512*0a 512*43 512*3a 512*dd 512*7b
settle d30
status d30
tick 0
resume d30
settle d30
status d30
tick 2
resume d30
settle d30
status d30
tick 2
resume d30
finish d30
create d40 0 31 snapshot d0 d22 P 1
save d0 0 31
save d1 0 45
save d2 0 20
save d3 0 47
save d4 0 43
message d23 0 addbadblock 12
remove d40
remove d22
remove d12
load d2 0 1024*00
create d12 0 19 flakey d2 1 6 1
create d22 0 19 dust d12 0 512
create d40 0 31 snapshot d0 d22 P 1
tick 1
finish d40
save d1 11 2
write d30 17 512*d4 512*e5 512*33 512*50 512*9f
write d42 11 512*9f 512*b3 512*b0
status d42
save d0 0 31
save d1 0 45
save d2 0 20
save d3 0 47
save d4 0 43
read d40 5 1
settle d40
remove d42
remove d24
remove d14
load d4 5 39*15 1*12 472*15
create d14 0 41 flakey d4 2 4 1
create d24 0 41 dust d14 0 1024
create d42 0 31 snapshot d0 d24 P 1
write d42 1 512*23 512*7b 512*1d 512*bb 512*d7 512*3b
read d41 17 3
write d40 12 512*59 512*09 512*e6
settle d30
write d30 10 512*7d 512*ab 512*09 512*b5
save d0 0 31
save d1 0 45
save d2 0 20
save d3 0 47
save d4 0 43
tick 2
write d30 15 512*c2 512*9c
remove d40
remove d22
remove d12
load d2 0 1024*00
create d12 0 19 flakey d2 1 6 1
create d22 0 19 dust d12 0 512
create d40 0 31 snapshot d0 d22 P 1
write d30 14 512*a5 512*10
save d2 3 5
remove d30
resume d41
merge d42
write d30 14 512*13 512*64 512*2a 512*43 512*1d 512*9e
message d20 0 enable
write d42 10 512*fa 512*7f 512*49 512*86 512*4d 512*c5
settle d30
status d30
tick 2
resume d30
settle d30
status d30
tick 1
resume d30
settle d30
status d30
tick 1
resume d30
finish d30
create d42 0 31 snapshot d0 d24 P 1
save d0 0 31
save d1 0 45
save d2 0 20
save d3 0 47
save d4 0 43
write d30 18 512*0d 512*cf 512*3f 512*a7
read d30 0 5
status d42
write d46 5 512*de 512*b9 512*eb 512*84
tick 2
write d41 12 512*f8 512*1d 512*36 512*87
read d42 10 1
message d20 0 countbadblocks
save d0 0 31
save d1 0 45
save d2 0 20
save d3 0 47
save d4 0 43
merge d40
read d30 0 31
tick 1
load d0 22 512*84 512*ce 512*fb
write d30 23 512*d2
frobnicate d30
write d30 1 512*93
disk d3 38
settle d30
status d30
tick 1
resume d30
finish d30
create d40 0 31 snapshot d0 d22 P 1
create d9 0 24 snapshot d0 d2 P 3
write d30 1 512*92 512*d2 512*83 512*33
read nosuch 0 0
tick 3
write d30 4 512*e0 512*03 512*f3 512*07
disk d0 28
stop d30
create d30 0 31 snapshot-origin d0
create d40 0 31 snapshot d0 d22 P 1
create d41 0 31 snapshot d0 d13 P 1
create d42 0 31 snapshot d0 d24 P 1
save d0 0 31
save d1 0 45
save d2 0 20
save d3 0 47
save d4 0 43
tick 3
tick 1
write d42 6 512*a3 512*78 512*50 512*7c 512*87
tick 1
disk d9 0
resume d30
table d11
remove d42
remove d24
remove d14
load d4 3 1*14 7*00 1*02 7*00 1*15 7*00 1*03 7*00 1*16 7*00 1*04 7*00 1*17 7*00 1*05 7*00 1*18 7*00 1*06 439*00
create d14 0 41 flakey d4 2 4 1
create d24 0 41 dust d14 0 1024
create d42 0 31 snapshot d0 d24 P 1
save d0 0 31
save d1 0 45
save d2 0 20
save d3 0 47
save d4 0 43
disk d2 22
read d30 5 6
save d2 9 2
status d41
write d30 17 512*71 512*00
write d42 14 512*52 512*1d 512*70 512*51
load d2 17 512*1b 512*0f 512*49
status d41
save d0 0 31
save d1 0 45
save d2 0 20
save d3 0 47
save d4 0 43
read d30 63 6
tick 3
save d0 11 1
stop d30
create d30 0 31 snapshot-origin d0
create d40 0 31 snapshot d0 d22 P 1
create d41 0 31 snapshot d0 d13 P 1
create d42 0 31 snapshot d0 d24 P 1
tick 3
settle d41
write d30 12 512*c1 512*cb 512*9c 512*12
write d40 17 512*48 512*4e 512*bb
save d0 0 31
save d1 0 45
save d2 0 20
save d3 0 47
save d4 0 43
write d30 53 512*89 512*aa
write d30 9 512*91 512*62 512*fd 512*11 512*85
merge d41
read d30 0 31
settle d30
read d30 0 31
merge d40
write d30 28 512*ba 512*1c 512*13
resume d30
write d30 16 512*9a 512*d0 512*35 512*b1
settle d30
status d30
tick 1
resume d30
finish d30
create d41 0 31 snapshot d0 d13 P 1
write d42 6 512*3d 512*b7 512*63
create d47 0 8 flakey d38 2 0 0 2 error_reads error_writes
settle d41
status d30
status d30
save d0 0 31
save d1 0 45
save d2 0 20
save d3 0 47
save d4 0 43
disk d9 0
settle d30
write d30 1 512*22 512*63 512*3c 512*0f
status d30
resume d30
save d47 9 1
save d0 8 6
remove d41
remove d23
remove d13
load d3 4 13*14 1*24 498*14
create d13 0 45 flakey d3 2 3 2 1 error_writes
create d41 0 31 snapshot d0 d13 P 1
save d0 0 31
save d1 0 45
save d2 0 20
save d3 0 47
save d4 0 43
finish d30
create d7 0 6 error
tick 2
write d42 14 512*78 512*43 512*a5 512*14
write d42 2 512*66 512*bc
disk d1 42
remove d41
remove d23
remove d13
load d3 0 1536*00
create d13 0 45 flakey d3 2 3 2 1 error_writes
create d41 0 31 snapshot d0 d13 P 1
message d21 0 addbadblock 40
save d0 0 31
save d1 0 45
save d2 0 20
save d3 0 47
save d4 0 43
remove d42
create d42 0 31 snapshot d0 d24 P 1
remove d42
remove d24
remove d14
load d4 0 1536*00
create d14 0 41 flakey d4 2 4 1
create d24 0 41 dust d14 0 1024
create d42 0 31 snapshot d0 d24 P 1
write d30 12 512*9d 512*39 512*f4 512*ea 512*b5
finish d30
settle d30
resume d40
remove d42
remove d24
remove d14
load d4 0 1024*00 1*53 1*6e 1*41 1*70 1*01 3*00 1*01 3*00 1*01 499*00
create d14 0 41 flakey d4 2 4 1
create d24 0 41 dust d14 0 1024
create d42 0 31 snapshot d0 d24 P 1
write d40 10 512*06 512*a7 512*1e 512*3c
settle d30
save d0 0 31
save d1 0 45
save d2 0 20
save d3 0 47
save d4 0 43
write d41 2 512*1e
message d24 0 countbadblocks
write d40 2 512*01 512*6e 512*81 512*e6
write d30 12 512*a6 512*08 512*a9 512*a1
write d41 3 512*64 512*cc
merge d42
read d30 0 31
write d40 20 512*0a 512*ef 512*f0 512*52 512*40
settle d30
status d30
tick 1
resume d30
finish d30
create d42 0 31 snapshot d0 d24 P 1
save d2 9 3
load d3 4 512*b7 512*76
save d0 0 31
save d1 0 45
save d2 0 20
save d3 0 47
save d4 0 43
merge d41
merge d42
settle d30
write d42 5 512*19 512*4d 512*1f 512*ec
create d30 0 31 snapshot-origin d0
settle d30
status d30
tick 0
resume d30
settle d30
status d30
tick 0
resume d30
finish d30
create d42 0 31 snapshot d0 d24 P 1
write d30 15 512*f6 512*9d 512*f6
