# Pseudo-random commands over layers that fail: snapshots written, spoiled, stale, attached again, merges that fail and go on.
# Drawn, and what must be printed was said, by the plain slow machine of `bench/tests/desk_rows`.
disk d0 59
create d10 0 57 flakey d0 2 6 2 2 error_reads error_writes
disk d1 61
create d21 0 61 dust d1 0 1024
disk d2 42
create d12 0 42 flakey d2 0 5 2
create d22 0 42 dust d12 0 2048
disk d3 25
create d13 0 24 flakey d3 1 5 2 1 error_reads
disk d4 42
create d14 0 42 flakey d4 0 5 2
create d24 0 42 dust d14 0 512
create d30 0 57 snapshot-origin d10
write d30 0 512*00 512*01 512*02 512*03 512*04 512*05 512*06 512*07 512*08 512*09 512*0a 512*0b 512*0c 512*0d 512*0e 512*0f 512*10 512*11 512*12 512*13 512*14 512*15 512*16 512*17 512*18 512*19 512*1a 512*1b 512*1c 512*1d 512*1e 512*1f 512*20 512*21 512*22 512*23 512*24 512*25 512*26 512*27 512*28 512*29 512*2a 512*2b 512*2c 512*2d 512*2e 512*2f 512*30 512*31 512*32 512*33 512*34 512*35 512*36 512*37 512*38
create d31 0 61 snapshot-origin d21
write d31 0 512*00 512*01 512*02 512*03 512*04 512*05 512*06 512*07 512*08 512*09 512*0a 512*0b 512*0c 512*0d 512*0e 512*0f 512*10 512*11 512*12 512*13 512*14 512*15 512*16 512*17 512*18 512*19 512*1a 512*1b 512*1c 512*1d 512*1e 512*1f 512*20 512*21 512*22 512*23 512*24 512*25 512*26 512*27 512*28 512*29 512*2a 512*2b 512*2c 512*2d 512*2e 512*2f 512*30 512*31 512*32 512*33 512*34 512*35 512*36 512*37 512*38 512*39 512*3a 512*3b 512*3c
create d40 0 61 snapshot d21 d22 P 1
create d41 0 57 snapshot d10 d13 P 1
create d42 0 61 snapshot d21 d24 P 1
message d21 0 enable
save d0 0 59
save d1 0 61
save d2 0 42
save d3 0 25
save d4 0 42
write d31 35 512*2c 512*70 512*11 512*a3 512*74 512*aa
write d30 39 512*be
remove d14
write d30 3 512*cf
write d40 30 512*59 512*92
stop d31
create d31 0 61 snapshot-origin d21
create d40 0 61 snapshot d21 d22 P 1
create d41 0 57 snapshot d10 d13 P 1
create d42 0 61 snapshot d21 d24 P 1
write d42 30 512*b8 512*77
write d41 6 512*a3
save d0 0 59
save d1 0 61
save d2 0 42
save d3 0 25
save d4 0 42
read d41 23 5
write d31 30 512*b6 512*ff 512*f0 512*a9 512*98
finish d40
write d30 15 512*c8 512*51 512*61 512*34 512*b5
read d31 6 5
merge d40
read d31 0 61
settle d31
read d31 0 61
settle d31
load d1 47 512*99 512*10
settle d31
status d31
tick 2
resume d31
settle d31
status d31
tick 2
resume d31
settle d31
status d31
tick 2
resume d31
finish d31
create d40 0 61 snapshot d21 d22 P 1
write d31 47 512*b9
write d30 29 512*6a 512*bb 512*c0 512*c5 512*f4 512*2c
save d0 0 59
save d1 0 61
save d2 0 42
save d3 0 25
save d4 0 42
write d30 18 512*d6 512*96 512*b0 512*28
save d2 5 4
write d41 29 512*7e 512*5b
status d40
message d24 0 enable
save d3 6 1
create d9 0 24 snapshot-merge d0 d2 P 1
write d3 5 1024*5c 512*d5 512*37 512*d4 512*ca
save d0 0 59
save d1 0 61
save d2 0 42
save d3 0 25
save d4 0 42
message d24 0 clearbadblocks
write d31 38 512*2f 512*b1 512*88 512*44 512*18
status d30
load d3 13 512*71 512*7f
read d31 30 5
remove d42
remove d24
remove d14
load d4 0 1*53 1*6e 1*41 1*70 1*01 3*00 1*01 3*00 1*01 499*00
create d14 0 42 flakey d4 0 5 2
create d24 0 42 dust d14 0 512
create d42 0 61 snapshot d21 d24 P 1
status d42
tick 2
save d0 0 59
save d1 0 61
save d2 0 42
save d3 0 25
save d4 0 42
remove d40
create d40 0 61 snapshot d21 d22 P 1
create d24 0 42 dust d14 0 512
tick 3
write d30 5 512*f2 512*d4 512*72 512*61 512*21
remove d42
remove d24
remove d14
load d4 3 20*24 1*09 491*24
create d14 0 42 flakey d4 0 5 2
create d24 0 42 dust d14 0 512
create d42 0 61 snapshot d21 d24 P 1
status d42
write d30 50 512*01 512*d8 512*88
write d41 47 1024*69 512*63 512*d2 512*ee
save d0 0 59
save d1 0 61
save d2 0 42
save d3 0 25
save d4 0 42
read d42 31 5
disk d3 24
resume d30
create d31 0 61 snapshot-origin d21
write d42 16 512*c8 512*02 512*88
create d9 0 24 snapshot-merge d0 d2 P 1
write d30 41 512*a7 512*33
read d30 16 2
save d0 0 59
save d1 0 61
save d2 0 42
save d3 0 25
save d4 0 42
write d41 4 512*4a 512*32 512*f1 512*a2 512*ae
message d20 0 queryblock 8
read d31 39 2
tick 2
write d30 6 512*b5 512*a4 512*b8 512*1e 512*c8 512*1d
save d3 7 6
write d30 19 512*3d
create d24 0 42 dust d14 0 512
save d0 0 59
save d1 0 61
save d2 0 42
save d3 0 25
save d4 0 42
read d40 52 6
merge d41
settle d30
status d30
tick 1
resume d30
settle d30
status d30
tick 1
resume d30
finish d30
create d41 0 57 snapshot d10 d13 P 1
write d42 8 512*16 512*71 512*4b 512*f7 512*3c
write d30 28 512*81 512*eb 512*c8
stop d30
create d30 0 57 snapshot-origin d10
create d40 0 61 snapshot d21 d22 P 1
create d41 0 57 snapshot d10 d13 P 1
create d42 0 61 snapshot d21 d24 P 1
save d3 19 1
tick 3
stop d31
create d31 0 61 snapshot-origin d21
create d40 0 61 snapshot d21 d22 P 1
create d42 0 61 snapshot d21 d24 P 1
save d0 0 59
save d1 0 61
save d2 0 42
save d3 0 25
save d4 0 42
write d42 51 512*7e 512*55
message d24 0 addbadblock 5
remove d42
create d42 0 61 snapshot d21 d24 P 1
remove d42
remove d24
remove d14
load d4 0 512*00
create d14 0 42 flakey d4 0 5 2
create d24 0 42 dust d14 0 512
create d42 0 61 snapshot d21 d24 P 1
merge d42
save d1 17 3
write d31 24 512*9f 512*dc 512*8e
write d40 34 512*eb
stop d30
create d30 0 57 snapshot-origin d10
create d40 0 61 snapshot d21 d22 P 1
save d0 0 59
save d1 0 61
save d2 0 42
save d3 0 25
save d4 0 42
status d41
remove d40
create d40 0 61 snapshot d21 d22 P 1
remove d40
create d40 0 61 snapshot d21 d22 P 1
write d30 22 512*59
write d40 8 512*89 512*27 512*4f 512*3f 512*c9
write d41 4 512*22 512*ae 512*99 512*02
save d1 10 6
write d31 34 512*16 512*0c 512*dc 512*49
write d40 17 512*ef 512*75
save d0 0 59
save d1 0 61
save d2 0 42
save d3 0 25
save d4 0 42
settle d41
write d41 8 512*3a 512*72 512*e5 512*4d
read d42 57 1
merge d41
status d30
settle d30
status d30
tick 2
resume d30
finish d30
create d41 0 57 snapshot d10 d13 P 1
message d23 0 removebadblock 33
merge d42
read d31 0 61
settle d31
read d31 0 61
message d21 0 addbadblock 11
settle d31
status d31
tick 1
resume d31
settle d31
status d31
tick 0
resume d31
finish d31
create d42 0 61 snapshot d21 d24 P 1
finish d31
write d31 24 512*14 512*bc 512*6f 512*b0
save d0 0 59
save d1 0 61
save d2 0 42
save d3 0 25
save d4 0 42
read d31 28 6
write d15 3 512*b6 512*53 512*a4 512*be 512*0c 512*c3
resume d15
merge d41
write d40 17 512*50 512*86 512*b8 512*31 512*e9
settle d30
status d30
tick 1
resume d30
finish d30
create d41 0 57 snapshot d10 d13 P 1
status d41
finish d31
write d31 18 512*9e 512*f1 512*9b 512*48 512*fe 512*95
settle d31
save d0 0 59
save d1 0 61
save d2 0 42
save d3 0 25
save d4 0 42
write d30 52 512*8f 512*30
read d41 13 1
resume d40
write d41 11 512*ac
write d41 30 512*c4 512*64 512*26 512*1f 512*db 512*3c
read d40 43 4
read d42 41 3
finish d42
save d0 0 59
save d1 0 61
save d2 0 42
save d3 0 25
save d4 0 42
read d30 8 6
merge d41
write d30 4 512*ae 512*8c 512*3b 512*d3 512*37 512*84
settle d30
status d30
tick 0
resume d30
settle d30
status d30
tick 1
resume d30
finish d30
create d41 0 57 snapshot d10 d13 P 1
finish d30
disk d12 31
remove d41
create d41 0 57 snapshot d10 d13 P 1
merge d40
write d41 6 512*86 512*90 512*ac 512*85
settle d30
status d30
tick 0
resume d30
settle d30
status d30
tick 2
resume d30
settle d30
status d30
tick 1
resume d30
finish d30
create d40 0 61 snapshot d21 d22 P 1
read d31 8 3
write d41 18 512*fb 512*57 512*77
save d0 0 59
save d1 0 61
save d2 0 42
save d3 0 25
save d4 0 42
remove d42
remove d24
remove d14
load d4 0 512*00
create d14 0 42 flakey d4 0 5 2
create d24 0 42 dust d14 0 512
create d42 0 61 snapshot d21 d24 P 1
write d30 0 512*38 512*66 512*90 512*33
write d41 12 512*6a 512*c6 512*64 512*b0 512*41
merge d41
write d30 45 512*f6
write d42 50 512*9c 512*82 512*3e 512*fb 512*dd 512*3c
write d40 11 512*24 512*36 512*ec 512*af
write d41 13 512*dc 512*2e 512*29 512*fb 512*ca
status d42
settle d30
status d30
tick 1
resume d30
settle d30
status d30
tick 2
resume d30
settle d30
status d30
tick 2
resume d30
finish d30
create d41 0 57 snapshot d10 d13 P 1
save d3 5 4
settle d39
tick 3
read d40 12 4
save d0 0 59
save d1 0 61
save d2 0 42
save d3 0 25
save d4 0 42
write d40 4 512*2a 512*14 512*ae 512*e7 512*46 512*c8
settle d42
write d42 11 512*b5 512*02 512*fa 512*1d
load d2 9 512*31 512*ac 512*38
write d31 6 512*5a
tick 2
merge d40
status d31
save d0 0 59
save d1 0 61
save d2 0 42
save d3 0 25
save d4 0 42
frobnicate d30
disk d0 26
remove d42
create d42 0 61 snapshot d21 d24 P 1
remove d42
create d42 0 61 snapshot d21 d24 P 1
remove d41
remove d23
remove d13
load d3 0 1024*00
create d13 0 24 flakey d3 1 5 2 1 error_reads
create d41 0 57 snapshot d10 d13 P 1
write d40 14 512*f1 512*0d 512*b3 512*c5 512*78 512*f2
read d30 12 5
stop d31
create d31 0 61 snapshot-origin d21
create d40 0 61 snapshot d21 d22 P 1
create d41 0 57 snapshot d10 d13 P 1
create d42 0 61 snapshot d21 d24 P 1
write d31 30 512*b8 512*6c 512*53 512*1b 512*a5
save d0 0 59
save d1 0 61
save d2 0 42
save d3 0 25
save d4 0 42
write d40 26 512*f6 512*61 512*db 512*b8 512*30 512*ab
merge d40
read d31 0 61
settle d31
read d31 0 61
settle d31
status d31
tick 0
resume d31
finish d31
create d40 0 61 snapshot d21 d22 P 1
remove d41
create d41 0 57 snapshot d10 d13 P 1
remove d41
remove d23
remove d13
load d3 4 23*03 1*0a 488*03
create d13 0 24 flakey d3 1 5 2 1 error_reads
create d41 0 57 snapshot d10 d13 P 1
finish d31
write d30 2 512*57 512*84 512*95 512*96 512*9e 512*f1
status d31
settle d30
write d30 14 512*9d 512*62
save d0 0 59
save d1 0 61
save d2 0 42
save d3 0 25
save d4 0 42
merge d41
write d30 10 512*60 512*f4 512*4a 512*b4 512*98 512*ed
remove d22
read d30 3 4
write d31 47 512*dd 512*5a
remove d31
tick 3
write d20 18 512*5d
save d0 0 59
save d1 0 61
save d2 0 42
save d3 0 25
save d4 0 42
remove d30
load d0 3 512*65 512*21 512*4d
read d31 39 6
status d41
tick 1
merge d42
settle d40
create d10 0 57 flakey d0 2 6 2 2 error_reads error_writes
save d0 0 59
save d1 0 61
save d2 0 42
save d3 0 25
save d4 0 42
settle d40
resume d31
write d31 32 512*08
save d3 2 3
remove d40
finish d42
remove d42
remove d24
remove d14
load d4 3 8*82 1*13 503*82
create d14 0 42 flakey d4 0 5 2
create d24 0 42 dust d14 0 512
create d42 0 61 snapshot d21 d24 P 1
remove d42
remove d24
remove d14
load d4 0 1*53 1*6e 1*41 1*70 1*01 3*00 1*01 3*00 1*01 499*00
create d14 0 42 flakey d4 0 5 2
create d24 0 42 dust d14 0 512
create d42 0 61 snapshot d21 d24 P 1
save d0 0 59
save d1 0 61
save d2 0 42
save d3 0 25
save d4 0 42
message d22 0 countbadblocks
write d30 39 512*6c 512*5c 512*8f
remove d42
remove d24
remove d14
load d4 0 512*00
create d14 0 42 flakey d4 0 5 2
create d24 0 42 dust d14 0 512
create d42 0 61 snapshot d21 d24 P 1
write d30 5 512*e0 512*a5 512*54 512*2b
write d42 52 512*ac 512*a5 512*db 512*c1
table d6
tick 2
message d21 0 addbadblock 14
save d0 0 59
save d1 0 61
save d2 0 42
save d3 0 25
save d4 0 42
write d40 14 512*bf 512*aa
save d2 17 6
write d31 26 512*34 512*71 512*00 512*45 512*53 512*a3
read d30 13 4
settle d30
tick 2
read d42 8 1
read d30 44 6
save d0 0 59
save d1 0 61
save d2 0 42
save d3 0 25
save d4 0 42
read d42 43 4
write d31 30 512*7e 512*b6 512*ae 512*60 512*94 512*ac
save d2 25 6
write d30 16 512*8b 512*3a 512*5d 512*21 512*5c
write d30 45 512*42 512*1b
write d30 19 512*d4 512*14 512*33 512*0b 512*56 512*5f
settle d42
remove d40
remove d22
remove d12
load d2 0 1*53 1*6e 1*41 1*70 1*01 3*00 1*01 3*00 1*01 499*00
create d12 0 42 flakey d2 0 5 2
create d22 0 42 dust d12 0 2048
create d40 0 61 snapshot d21 d22 P 1
save d0 0 59
save d1 0 61
save d2 0 42
save d3 0 25
save d4 0 42
stop d31
create d31 0 61 snapshot-origin d21
create d40 0 61 snapshot d21 d22 P 1
create d41 0 57 snapshot d10 d13 P 1
create d42 0 61 snapshot d21 d24 P 1
read d31 54 3
write d40 39 512*de 512*66
load d1 53 512*c4
status d31
message d23 0 addbadblock 3
load d26 20 512*78 512*9c
message d22 0 countbadblocks
save d0 0 59
save d1 0 61
save d2 0 42
save d3 0 25
save d4 0 42
remove d42
create d42 0 61 snapshot d21 d24 P 1
remove d42
create d42 0 61 snapshot d21 d24 P 1
stop d31
create d31 0 61 snapshot-origin d21
create d40 0 61 snapshot d21 d22 P 1
create d42 0 61 snapshot d21 d24 P 1
remove d42
remove d24
remove d14
load d4 2 31*9c 1*13 480*9c
create d14 0 42 flakey d4 0 5 2
create d24 0 42 dust d14 0 512
create d42 0 61 snapshot d21 d24 P 1
read d42 56 5
write d31 29 512*7f 512*71 512*6f 512*95 512*50 512*e0
remove d41
settle d31
write d40 50 512*c1
save d0 0 59
save d1 0 61
save d2 0 42
save d3 0 25
save d4 0 42
save d32 9 6
read d40 7 6
write d30 4 512*39 512*5f 512*e2
write d41 47 512*76 512*e9 512*c4 512*a9 512*98 512*50
message d23 0 disable
write d31 56 512*52 512*ef 512*be
write d40 13 512*88 512*b2 512*cd 512*13 512*dd 512*e1
create d9 0 24 snapshot-merge d0 d2 P 1
save d0 0 59
save d1 0 61
save d2 0 42
save d3 0 25
save d4 0 42
write d41 24 512*a1 512*1a 512*68
write d30 13 512*93 512*3b 512*10
read d40 53 6
write d40 7 512*09 512*88 512*0b 512*8d 512*40
read d40 50 5
save d3 5 1
remove d42
create d42 0 61 snapshot d21 d24 P 1
remove d42
remove d24
remove d14
load d4 3 1*1a 511*82
create d14 0 42 flakey d4 0 5 2
create d24 0 42 dust d14 0 512
create d42 0 61 snapshot d21 d24 P 1
message d22 0 addbadblock 11
save d0 0 59
save d1 0 61
save d2 0 42
save d3 0 25
save d4 0 42
write d42 16 512*55 512*13 512*fc 512*fd
remove d41
create d41 0 57 snapshot d10 d13 P 1
write d31 32 512*98 512*22
read d31 20 1
read d41 25 1
write d31 27 512*ee 512*c8 512*6d
write d31 10 512*f1 512*d1 512*5b 512*1b
read d31 51 5
save d0 0 59
save d1 0 61
save d2 0 42
save d3 0 25
save d4 0 42
tick 1
stop d30
create d30 0 57 snapshot-origin d10
create d40 0 61 snapshot d21 d22 P 1
create d41 0 57 snapshot d10 d13 P 1
resume d41
write d40 33 512*c6 512*30
settle d30
read d40 60 4
table d16
read d41 40 4
save d0 0 59
save d1 0 61
save d2 0 42
save d3 0 25
save d4 0 42
message d23 0 addbadblock 25
save d4 23 3
merge d42
read d31 0 61
settle d31
read d31 0 61
finish d41
message d21 0 enable
read d41 18 6
write d29 4 512*6e 512*7b 512*c4
save d1 9 2
settle d31
status d31
tick 2
resume d31
finish d31
create d42 0 61 snapshot d21 d24 P 1
write d31 42 512*ef 512*e6 512*7f 512*d4 512*f1 512*bd
write d30 23 512*38 512*41
remove d42
remove d24
remove d14
load d4 0 1*53 1*6e 1*41 1*70 1*01 3*00 1*01 3*00 1*01 18*00 1*13 480*00
create d14 0 42 flakey d4 0 5 2
create d24 0 42 dust d14 0 512
create d42 0 61 snapshot d21 d24 P 1
settle d30
merge d42
read d31 0 61
read d30 31 4
read d40 9 4
write d41 9 512*02 512*b8 512*e2 512*d8
read d31 9 3
write d40 0 512*6e 512*a5
tick 2
settle d31
status d31
tick 2
resume d31
settle d31
status d31
tick 1
resume d31
finish d31
create d42 0 61 snapshot d21 d24 P 1
save d0 0 59
save d1 0 61
save d2 0 42
save d3 0 25
save d4 0 42
table d30
remove d42
remove d24
remove d14
load d4 2 17*18 1*01 494*18
create d14 0 42 flakey d4 0 5 2
create d24 0 42 dust d14 0 512
create d42 0 61 snapshot d21 d24 P 1
message d23 0 addbadblock 8
write d31 7 512*4f 512*59
read d41 39 3
remove d40
create d40 0 61 snapshot d21 d22 P 1
remove d40
remove d22
remove d12
load d2 2 34*b9 1*13 477*b9
create d12 0 42 flakey d2 0 5 2
create d22 0 42 dust d12 0 2048
create d40 0 61 snapshot d21 d22 P 1
message d22 0 countbadblocks
read d41 3 1
save d0 0 59
save d1 0 61
save d2 0 42
save d3 0 25
save d4 0 42
read d30 37 1
settle d31
stop d31
create d31 0 61 snapshot-origin d21
create d40 0 61 snapshot d21 d22 P 1
create d41 0 57 snapshot d10 d13 P 1
create d42 0 61 snapshot d21 d24 P 1
status d30
write d31 44 512*4e 512*13 512*4e 512*4d
status d31
message d24 0 countbadblocks
read d30 35 3
save d0 0 59
save d1 0 61
save d2 0 42
save d3 0 25
save d4 0 42
merge d40
merge d40
message d22 0 queryblock 36
merge d42
message d20 0 queryblock 29
write d42 29 512*6f 512*f6 512*17 512*09 512*f6 512*3f
tick 1
resume d40
save d0 0 59
save d1 0 61
save d2 0 42
save d3 0 25
save d4 0 42
table d48
stop d30
create d30 0 57 snapshot-origin d10
create d41 0 57 snapshot d10 d13 P 1
remove d41
remove d23
remove d13
load d3 0 1024*00
create d13 0 24 flakey d3 1 5 2 1 error_reads
create d41 0 57 snapshot d10 d13 P 1
merge d41
read d30 0 57
settle d30
status d30
tick 1
resume d30
finish d30
create d41 0 57 snapshot d10 d13 P 1
read d41 30 1
write d40 5 512*7e 512*ca 512*1a 512*c4
tick 3
status d33
save d0 0 59
save d1 0 61
save d2 0 42
save d3 0 25
save d4 0 42
write d40 12 512*8a 512*64
read d40 15 5
read d41 33 4
write d41 46 512*a3 512*2c 512*5a
read d42 53 4
merge d42
resume d40
read d42 31 6
save d0 0 59
save d1 0 61
save d2 0 42
save d3 0 25
save d4 0 42
read d42 48 6
merge d42
read d31 0 61
status d42
finish d31
settle d30
settle d31
status d31
tick 0
resume d31
finish d31
create d42 0 61 snapshot d21 d24 P 1
write d40 7 512*ff 512*7c
write d30 8 512*28 512*a8
write d41 53 512*58 512*3c
remove d42
create d42 0 61 snapshot d21 d24 P 1
load d1 44 512*66 512*ec 512*88 512*d5 512*47
message d22 0 queryblock 30
save d0 0 59
save d1 0 61
save d2 0 42
save d3 0 25
save d4 0 42
status d41
read d30 1 4
table d12
