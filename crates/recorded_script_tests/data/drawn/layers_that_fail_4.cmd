# Pseudo-random commands over layers that fail: snapshots written, spoiled, stale, attached again, merges that fail and go on.
# Drawn, and what must be printed was said, by the plain slow machine of `bench/tests/desk_rows`.
disk d0 30
create d10 0 28 flakey d0 2 4 2
create d20 0 28 dust d10 0 1024
disk d1 30
create d11 0 28 flakey d1 2 3 2 1 error_writes
disk d2 33
create d12 0 31 flakey d2 2 6 1
create d22 0 31 dust d12 0 2048
disk d3 36
create d23 0 36 dust d3 0 1024
disk d4 48
create d24 0 48 dust d4 0 512
create d30 0 28 snapshot-origin d20
write d30 0 512*00 512*01 512*02 512*03 512*04 512*05 512*06 512*07 512*08 512*09 512*0a 512*0b 512*0c 512*0d 512*0e 512*0f 512*10 512*11 512*12 512*13 512*14 512*15 512*16 512*17 512*18 512*19 512*1a 512*1b
create d40 0 28 snapshot d20 d22 P 1
create d41 0 28 snapshot d20 d23 P 1
create d42 0 28 snapshot d20 d24 P 1
write d40 35 512*6f 512*bc
save d0 0 30
save d1 0 30
save d2 0 33
save d3 0 36
save d4 0 48
tick 1
disk d2 43
merge d41
read d30 0 28
settle d30
read d30 0 28
settle d30
status d30
tick 2
resume d30
settle d30
status d30
tick 0
resume d30
finish d30
create d41 0 28 snapshot d20 d23 P 1
merge d42
message d21 0 addbadblock 12
status d30
merge d41
save d1 7 3
settle d30
status d30
tick 0
resume d30
settle d30
status d30
tick 1
resume d30
finish d30
create d41 0 28 snapshot d20 d23 P 1
remove d41
remove d23
remove d13
load d3 0 1*53 1*6e 1*41 1*70 1*01 3*00 1*01 3*00 1*01 499*00
create d23 0 36 dust d3 0 1024
create d41 0 28 snapshot d20 d23 P 1
save d0 0 30
save d1 0 30
save d2 0 33
save d3 0 36
save d4 0 48
settle d40
message d20 0 addbadblock 18
write d30 16 512*6d
remove d42
create d42 0 28 snapshot d20 d24 P 1
remove d42
remove d24
remove d14
load d4 0 1*53 1*6e 1*41 1*70 1*01 3*00 1*01 3*00 1*01 499*00
create d24 0 48 dust d4 0 512
create d42 0 28 snapshot d20 d24 P 1
settle d30
disk d4 28
write d30 2 512*a0 512*fb 512*3d 512*54
table d15
save d0 0 30
save d1 0 30
save d2 0 33
save d3 0 36
save d4 0 48
table d29
settle d42
write d30 14 512*fc 512*85 512*40 512*c7
merge d41
message d21 0 disable
message d20 0 addbadblock 8
settle d30
status d30
tick 2
resume d30
settle d30
status d30
tick 0
resume d30
settle d30
status d30
tick 2
resume d30
finish d30
create d41 0 28 snapshot d20 d23 P 1
write d30 6 512*b2 512*58
status d42
message d24 0 clearbadblocks
resume d41
save d0 0 30
save d1 0 30
save d2 0 33
save d3 0 36
save d4 0 48
resume d30
settle d40
finish d30
merge d41
write d30 17 512*61 512*70 512*a5 512*a7 512*b5 512*2b
settle d30
settle d30
status d30
tick 0
resume d30
settle d30
status d30
tick 2
resume d30
settle d30
status d30
tick 0
resume d30
finish d30
create d41 0 28 snapshot d20 d23 P 1
status d30
write d30 5 512*db
read d41 9 1
read d30 8 6
save d0 0 30
save d1 0 30
save d2 0 33
save d3 0 36
save d4 0 48
settle d30
remove d42
remove d24
remove d14
load d4 2 8*00 1*10 503*00
create d24 0 48 dust d4 0 512
create d42 0 28 snapshot d20 d24 P 1
merge d41
read d41 1 6
write d30 16 512*53 512*ce 512*52
read d30 15 4
settle d30
status d30
tick 1
resume d30
settle d30
status d30
tick 2
resume d30
finish d30
create d41 0 28 snapshot d20 d23 P 1
table d32
write d30 16 512*6b 512*3b 512*ff 512*b2 512*ee 512*3a
create d30 0 28 snapshot-origin d20
write d40 4 512*46 512*52 512*6f 512*be 512*da 512*0d
write d41 23 512*bf 512*58
save d0 0 30
save d1 0 30
save d2 0 33
save d3 0 36
save d4 0 48
write d30 20 512*a2 512*c8 512*94 512*2d 512*00 512*bf
message d22 0 countbadblocks
read d42 13 6
merge d41
load d3 12 512*fd 512*0a 512*84 512*e2
write d30 9 512*18
message d23 0 removebadblock 49
write d41 15 512*8d 512*0f 512*f0
read d40 17 1
write d40 52 512*83 512*1f
settle d30
status d30
tick 0
resume d30
settle d30
status d30
tick 0
resume d30
settle d30
status d30
tick 1
resume d30
finish d30
create d41 0 28 snapshot d20 d23 P 1
merge d42
remove d12
write d30 22 512*ba
settle d41
save d0 0 30
save d1 0 30
save d2 0 33
save d3 0 36
save d4 0 48
settle d41
write d30 9 512*42
save d1 8 2
write d8 13 512*20 512*df 512*63
status d40
message d20 0 enable
write d30 8 512*b8 512*cc 512*af 512*01 512*e3 512*83
message d21 0 countbadblocks
save d0 0 30
save d1 0 30
save d2 0 33
save d3 0 36
save d4 0 48
write d41 50 512*7b 512*ca 512*66 512*05 512*cd
save d1 2 4
remove d41
create d41 0 28 snapshot d20 d23 P 1
read d30 45 2
finish d30
status d41
write d30 14 512*a5 512*c9 512*c4 512*bc 512*e0 512*75
settle d30
save d0 0 30
save d1 0 30
save d2 0 33
save d3 0 36
save d4 0 48
write d40 5 512*6d 512*00 512*d6 512*67 512*f1
read d5 3 4
finish d17
resume d30
resume d30
settle d41
tick 1
remove d40
create d40 0 28 snapshot d20 d22 P 1
save d0 0 30
save d1 0 30
save d2 0 33
save d3 0 36
save d4 0 48
read d30 2 1
write d28 21 512*c9 512*07 512*a1
resume d30
write d30 13 512*1b 512*e9 512*78 512*48 512*8c
save d0 9 2
write d40 0 512*c0 512*d3 512*1e 512*4c
write d42 4 512*5e 512*19 512*48 512*39 512*e3
merge d42
save d0 0 30
save d1 0 30
save d2 0 33
save d3 0 36
save d4 0 48
resume d30
merge d41
write d30 7 512*05 512*f8 512*1f 512*7f 512*32
remove d40
remove d22
remove d12
load d2 4 43*00 1*21 468*00
create d12 0 31 flakey d2 2 6 1
create d22 0 31 dust d12 0 2048
create d40 0 28 snapshot d20 d22 P 1
load d4 39 512*2f 512*91 512*41 512*02 512*89 512*e4
disk d0 28
settle d42
save d3 1 4
save d0 0 30
save d1 0 30
save d2 0 33
save d3 0 36
save d4 0 48
save d47 2 6
write d40 8 512*90 512*4b 512*a8 512*cd 512*b6
write d30 5 512*b4 512*f4 512*23 512*e8 512*1e 512*f4
read d30 13 2
message d20 1 enable
read d30 7 2
disk d4 35
remove d42
create d42 0 28 snapshot d20 d24 P 1
remove d42
remove d24
remove d14
load d4 2 8*00 1*10 3*00 1*23 499*00
create d24 0 48 dust d4 0 512
create d42 0 28 snapshot d20 d24 P 1
save d0 0 30
save d1 0 30
save d2 0 33
save d3 0 36
save d4 0 48
write d30 6 1024*4c 512*90 512*05 512*ac
message d24 0 enable
write d30 8 512*83 512*fd 512*f0 512*19 512*d5
status d30
write d42 61 512*0e 512*9d 512*d0
read d30 9 3
remove d41
create d41 0 28 snapshot d20 d23 P 1
settle d40
save d0 0 30
save d1 0 30
save d2 0 33
save d3 0 36
save d4 0 48
message d22 0 addbadblock 37
read d30 11 5
finish d30
finish d42
read d40 4 5
read d30 4 6
tick 3
message d20 0 addbadblock 21
save d0 0 30
save d1 0 30
save d2 0 33
save d3 0 36
save d4 0 48
write d30 14 512*56 512*15 512*a3 512*b5
merge d40
tick 2
create d20 0 28 dust d10 0 1024
settle d30
status d30
tick 1
resume d30
settle d30
status d30
tick 0
resume d30
finish d30
create d40 0 28 snapshot d20 d22 P 1
write d40 8 512*9c 512*a7 512*38
read d30 0 5
write d43 9 512*e1 512*db 512*cc 512*ee
read d30 4 5
write d30 3 512*f7 512*5f 512*1e 512*96 512*00
save d4 23 2
save d0 0 30
save d1 0 30
save d2 0 33
save d3 0 36
save d4 0 48
read d30 15 6
settle d42
save d3 28 2
write d41 6 512*02 512*18 512*cd 512*70 512*4c 512*ca
write d41 14 512*5d 512*ee 512*b7 512*d1 512*d7 512*5b
save d2 0 2
read d42 12 6
write d40 12 512*bd 512*59 512*37
save d0 0 30
save d1 0 30
save d2 0 33
save d3 0 36
save d4 0 48
read d30 2 2
save d1 17 1
merge d41
load d2 17 512*c5 512*30 512*d3 512*81 512*05
read d42 16 6
finish d30
read d30 9 6
settle d30
status d30
tick 2
resume d30
settle d30
status d30
tick 0
resume d30
finish d30
create d41 0 28 snapshot d20 d23 P 1
message d23 0 countbadblocks
status d30
status d40
message d20 0 addbadblock 39
write d30 12 512*ff 512*6f
save d0 0 30
save d1 0 30
save d2 0 33
save d3 0 36
save d4 0 48
read d30 10 2
write d40 2 512*74 512*44 512*45 512*c9 512*28
remove d42
create d42 0 28 snapshot d20 d24 P 1
remove d42
remove d24
remove d14
load d4 3 47*00 1*19 464*00
create d24 0 48 dust d4 0 512
create d42 0 28 snapshot d20 d24 P 1
write d41 17 512*56 512*82 512*db 512*8d 512*0b
write d30 9 512*94 512*ac 512*6a 512*67
remove d41
remove d23
remove d13
load d3 2 15*00 1*26 496*00
create d23 0 36 dust d3 0 1024
create d41 0 28 snapshot d20 d23 P 1
write d30 6 512*a0 512*b3 512*f5 512*b7
table d22
save d0 0 30
save d1 0 30
save d2 0 33
save d3 0 36
save d4 0 48
message d20 0 countbadblocks
write d42 11 512*c4 512*06 512*38 512*08 512*e3
message d20 0 enable
tick 1
read d40 4 5
remove d42
create d42 0 28 snapshot d20 d24 P 1
tick 1
message d22 0 enable
save d0 0 30
save d1 0 30
save d2 0 33
save d3 0 36
save d4 0 48
write d30 23 512*7e 512*0c 512*2a
resume d30
stop d30
create d30 0 28 snapshot-origin d20
create d40 0 28 snapshot d20 d22 P 1
create d42 0 28 snapshot d20 d24 P 1
merge d42
disk d2 32
tick 2
settle d40
create d9 0 8 flakey d0 0 0 0
settle d30
status d30
tick 2
resume d30
settle d30
status d30
tick 0
resume d30
finish d30
create d42 0 28 snapshot d20 d24 P 1
finish d30
write d40 6 512*68 512*33 512*20 512*bb
table d40
stop d30
create d30 0 28 snapshot-origin d20
create d40 0 28 snapshot d20 d22 P 1
create d42 0 28 snapshot d20 d24 P 1
save d0 0 30
save d1 0 30
save d2 0 33
save d3 0 36
save d4 0 48
stop d31
create d40 0 28 snapshot d20 d22 P 1
create d41 0 28 snapshot d20 d23 P 1
create d42 0 28 snapshot d20 d24 P 1
read d30 3 5
write d40 15 512*bb 512*14 512*bc
table d3
message d24 0 removebadblock 39
write d40 9 512*5d 512*86
tick 1
save d1 5 1
save d0 0 30
save d1 0 30
save d2 0 33
save d3 0 36
save d4 0 48
message d20 0 clearbadblocks
write d30 6 512*ca 512*c3 512*27 512*04 512*6c
write d42 14 512*8e 512*1c 512*b9
read d30 17 2
stop d31
create d40 0 28 snapshot d20 d22 P 1
create d41 0 28 snapshot d20 d23 P 1
create d42 0 28 snapshot d20 d24 P 1
write d40 9 512*c2
resume d30
write d30 16 512*76 512*bf
save d0 0 30
save d1 0 30
save d2 0 33
save d3 0 36
save d4 0 48
write d40 9 512*b7 512*db 512*28 512*55
create d42 0 46 snapshot-origin d8
settle d41
write d41 13 512*7f 512*d0 512*bb 512*25 512*90 512*00
disk d2 28
save d2 19 2
write d30 10 512*b7 512*ee 512*7f
write d41 3 512*e6 512*55 512*9b 512*30
save d0 0 30
save d1 0 30
save d2 0 33
save d3 0 36
save d4 0 48
message d22 0 enable
message d15 0 countbadblocks
table d21
write d30 16 512*01 512*6c 512*f3 512*c6 512*ae 512*63
finish d42
tick 2
resume d30
write d41 4 512*8b 512*36 512*90 512*01 512*3c
save d0 0 30
save d1 0 30
save d2 0 33
save d3 0 36
save d4 0 48
write d30 7 512*96 512*95 512*83 512*fa 512*eb
write d30 1 512*f3 512*53 512*4d 512*d3 512*99 512*ec
read d42 15 5
message d24 0 enable
stop d31
create d40 0 28 snapshot d20 d22 P 1
create d42 0 28 snapshot d20 d24 P 1
read d42 19 2
table d13
write d42 3 512*90 512*e9 512*ab 512*0e 512*ef
save d0 0 30
save d1 0 30
save d2 0 33
save d3 0 36
save d4 0 48
settle d41
remove d40
remove d22
remove d12
load d2 0 1536*00
create d12 0 31 flakey d2 2 6 1
create d22 0 31 dust d12 0 2048
create d40 0 28 snapshot d20 d22 P 1
stop d30
create d30 0 28 snapshot-origin d20
create d40 0 28 snapshot d20 d22 P 1
create d41 0 28 snapshot d20 d23 P 1
create d42 0 28 snapshot d20 d24 P 1
write d41 11 512*c7 512*54
message d22 0 addbadblock 11
read d30 7 5
read d40 8 6
save d3 19 6
save d0 0 30
save d1 0 30
save d2 0 33
save d3 0 36
save d4 0 48
write d42 7 512*9e 512*46 512*6b
remove d41
remove d23
remove d13
load d3 0 512*00
create d23 0 36 dust d3 0 1024
create d41 0 28 snapshot d20 d23 P 1
write d30 3 512*5d 512*a8 512*4a
message d21 0 clearbadblocks
message d20 0 queryblock 11
read d30 7 6
status d40
load d2 3 512*43 512*8a 512*15 512*0d 512*a6 512*cf
save d0 0 30
save d1 0 30
save d2 0 33
save d3 0 36
save d4 0 48
status d30
read d42 11 6
write d42 28 512*87 512*a4 512*5b 512*7b 512*d0 512*3d
message d20 0 disable
read d40 18 4
tick 1
write d30 4 512*bb 512*1c 512*68 512*59 512*95 512*2b
write d41 16 512*0a
save d0 0 30
save d1 0 30
save d2 0 33
save d3 0 36
save d4 0 48
load d4 22 512*d4
message d23 0 addbadblock 23
write d40 1 512*8a 512*5d
read d42 10 2
read d30 13 3
remove d40
remove d22
remove d12
load d2 0 1536*00
create d12 0 31 flakey d2 2 6 1
create d22 0 31 dust d12 0 2048
create d40 0 28 snapshot d20 d22 P 1
read d40 8 1
read d30 12 3
save d0 0 30
save d1 0 30
save d2 0 33
save d3 0 36
save d4 0 48
write d30 1 512*47 512*87 512*dd
tick 1
write d41 10 512*70 512*7a
remove d42
remove d24
remove d14
load d4 0 1*53 1*6e 1*41 1*70 4*00 1*01 3*00 1*01 17*00 1*1b 481*00
create d24 0 48 dust d4 0 512
create d42 0 28 snapshot d20 d24 P 1
remove d40
remove d22
remove d12
load d2 0 1024*00 1*53 1*6e 1*41 1*70 1*01 3*00 1*01 3*00 1*01 499*00
create d12 0 31 flakey d2 2 6 1
create d22 0 31 dust d12 0 2048
create d40 0 28 snapshot d20 d22 P 1
merge d42
read d30 22 3
read d40 1 6
settle d30
status d30
tick 0
resume d30
finish d30
create d42 0 28 snapshot d20 d24 P 1
create d42 0 28 snapshot d20 d24 P 1
write d30 12 512*70 512*94
save d0 0 30
save d1 0 30
save d2 0 33
save d3 0 36
save d4 0 48
write d30 7 512*37 512*a3 512*7e 512*57 512*08
settle d40
write d30 4 512*05 512*50 512*76 512*61 512*8b 512*ba
tick 1
load d1 1 512*86 512*8d
merge d42
status d30
settle d30
status d30
tick 0
resume d30
settle d30
status d30
tick 1
resume d30
finish d30
create d42 0 28 snapshot d20 d24 P 1
remove d40
create d40 0 28 snapshot d20 d22 P 1
remove d40
create d40 0 28 snapshot d20 d22 P 1
write d30 1 512*4a 512*25 512*b2
save d0 0 30
save d1 0 30
save d2 0 33
save d3 0 36
save d4 0 48
merge d40
finish d40
write d40 12 512*36 512*a4 512*0c 512*41 512*fc 512*6e
settle d30
status d30
tick 1
resume d30
settle d30
status d30
tick 0
resume d30
settle d30
status d30
tick 0
resume d30
finish d30
create d40 0 28 snapshot d20 d22 P 1
read d30 6 4
remove d41
remove d23
remove d13
load d3 1 1*03 7*00 1*02 7*00 1*04 7*00 1*03 7*00 1*05 4*00 1*0d 2*00 1*04 7*00 1*06 7*00 1*05 7*00 1*07 7*00 1*06 7*00 1*08 7*00 1*07 7*00 1*09 7*00 1*08 7*00 1*10 7*00 1*09 7*00 1*01 7*00 1*0a 7*00 1*02 7*00 1*0b 359*00
create d23 0 36 dust d3 0 1024
create d41 0 28 snapshot d20 d23 P 1
write d30 11 512*00 512*3c 512*f2 512*09 512*71 512*86
merge d41
write d41 10 512*ef 512*9c 512*57 512*21 512*71 512*84
create d41 0 28 snapshot d20 d23 P 1
merge d40
read d30 12 3
read d30 9 4
tick 1
tick 3
settle d30
status d30
tick 0
resume d30
settle d30
status d30
tick 2
resume d30
finish d30
create d41 0 28 snapshot d20 d23 P 1
read d41 16 1
stop d31
create d40 0 28 snapshot d20 d22 P 1
create d41 0 28 snapshot d20 d23 P 1
create d42 0 28 snapshot d20 d24 P 1
tick 3
save d0 0 30
save d1 0 30
save d2 0 33
save d3 0 36
save d4 0 48
read d30 22 1
write d30 8 512*eb 512*f5 512*2a 512*33 512*6c 512*9d
remove d42
create d42 0 28 snapshot d20 d24 P 1
remove d42
remove d24
remove d14
load d4 0 1*53 1*6e 1*41 1*70 1*01 3*00 1*01 3*00 1*01 17*00 1*1b 481*00
create d24 0 48 dust d4 0 512
create d42 0 28 snapshot d20 d24 P 1
write d40 6 512*2b 512*6b 512*6a
load d2 13 512*44 512*bf
read d30 2 6
finish d42
merge d40
write d40 57 512*41 512*14 512*1c
write d30 21 512*e6 512*c5 512*8e 512*31 512*0e 512*66
write d30 6 512*f4 512*5b 512*cb 512*d6 512*2c
status d30
save d22 37 1
save d4 5 5
status nosuch
settle d30
status d30
tick 2
resume d30
settle d30
status d30
tick 1
resume d30
finish d30
create d40 0 28 snapshot d20 d22 P 1
save d0 0 30
save d1 0 30
save d2 0 33
save d3 0 36
save d4 0 48
remove d10
write d41 6 512*22 512*45 512*e8
write d30 13 512*e6 512*34 512*53 512*6f 512*26
read d30 11 4
status d42
status d30
remove d41
create d41 0 28 snapshot d20 d23 P 1
read d30 23 3
save d0 0 30
save d1 0 30
save d2 0 33
save d3 0 36
save d4 0 48
settle d23
read d30 10 1
write d30 9 512*f0 512*39 512*c8 512*7d 512*41 512*3f
message d21 0 enable
finish d30
create d41 0 28 snapshot d20 d23 P 1
message d20 0 queryblock 43
read d42 10 5
save d0 0 30
save d1 0 30
save d2 0 33
save d3 0 36
save d4 0 48
write d42 7 512*0f 512*60 512*6f 512*b5
read d40 17 1
load d1 17 512*3b 512*f9 512*45
message d22 0 removebadblock 36
stop d30
create d30 0 28 snapshot-origin d20
create d40 0 28 snapshot d20 d22 P 1
create d42 0 28 snapshot d20 d24 P 1
merge d41
tick 2
create d18 0 18 snapshot d37 d4 P 2
load d41 3 512*18 1024*fe 512*bb 512*80
settle d30
status d30
tick 2
resume d30
settle d30
status d30
tick 2
resume d30
settle d30
status d30
tick 0
resume d30
finish d30
create d41 0 28 snapshot d20 d23 P 1
remove d40
create d40 0 28 snapshot d20 d22 P 1
status d42
save d0 0 30
save d1 0 30
save d2 0 33
save d3 0 36
save d4 0 48
write d30 13 512*8a 512*0e
write d41 5 512*c8 512*97 512*95
remove d40
remove d22
remove d12
load d2 4 30*f3 1*09 481*f3
create d12 0 31 flakey d2 2 6 1
create d22 0 31 dust d12 0 2048
create d40 0 28 snapshot d20 d22 P 1
settle d41
write d40 2 512*e2
tick 2
write d30 15 512*83 512*c1 512*18
write d30 12 512*f3 512*6c 512*93 512*03 512*a9 512*bc
save d0 0 30
save d1 0 30
save d2 0 33
save d3 0 36
save d4 0 48
message d22 0 removebadblock 25
write d40 8 512*ae 512*44 512*d1 512*99 512*7f 512*5b
load d4 36 512*20
