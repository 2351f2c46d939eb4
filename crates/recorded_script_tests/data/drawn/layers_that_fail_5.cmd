# Pseudo-random commands over layers that fail: snapshots written, spoiled, stale, attached again, merges that fail and go on.
# Drawn, and what must be printed was said, by the plain slow machine of `bench/tests/desk_rows`.
disk d0 49
create d10 0 48 flakey d0 1 6 2
create d20 0 48 dust d10 0 512
disk d1 41
create d11 0 41 flakey d1 0 6 2 1 error_writes
disk d2 46
create d12 0 45 flakey d2 1 3 1 1 error_reads
create d22 0 45 dust d12 0 1024
disk d3 34
disk d4 44
create d30 0 48 snapshot-origin d20
write d30 0 512*00 512*01 512*02 512*03 512*04 512*05 512*06 512*07 512*08 512*09 512*0a 512*0b 512*0c 512*0d 512*0e 512*0f 512*10 512*11 512*12 512*13 512*14 512*15 512*16 512*17 512*18 512*19 512*1a 512*1b 512*1c 512*1d 512*1e 512*1f 512*20 512*21 512*22 512*23 512*24 512*25 512*26 512*27 512*28 512*29 512*2a 512*2b 512*2c 512*2d 512*2e 512*2f
create d40 0 48 snapshot d20 d22 P 1
create d41 0 48 snapshot d20 d3 P 1
create d42 0 48 snapshot d20 d4 P 1
read d42 6 3
save d0 0 49
save d1 0 41
save d2 0 46
save d3 0 34
save d4 0 44
read d30 0
write d30 16 512*e6 512*74 512*4a 512*db 512*cf
finish d41
remove d41
remove d23
remove d13
load d3 1 1*10 7*00 1*02 6*00 1*01 1*11 7*00 1*03 7*00 1*12 7*00 1*04 7*00 1*13 7*00 1*05 7*00 1*14 7*00 1*06 439*00
create d41 0 48 snapshot d20 d3 P 1
merge d40
status d41
write d30 33 512*75 512*4f
write d30 2 512*88 512*2a 512*f8 512*3c
save d0 0 49
save d1 0 41
save d2 0 46
save d3 0 34
save d4 0 44
write d42 14 512*56 512*c0
tick 1
remove d20
message d24 0 addbadblock 14
merge d42
disk d9 0
disk d4 25
tick 1
save d0 8 2
write d30 27 512*70 512*7c
settle d30
status d30
tick 0
resume d30
settle d30
status d30
tick 2
resume d30
settle d30
status d30
tick 2
resume d30
finish d30
create d42 0 48 snapshot d20 d4 P 1
disk d9 0
merge d42
message d23 0 queryblock 31
save d0 0 49
save d1 0 41
save d2 0 46
save d3 0 34
save d4 0 44
read d40 8 1
write d42 25 512*ea 512*93 512*09 512*a2
status d30
write d42 14 512*b9
stop d30
create d30 0 48 snapshot-origin d20
create d40 0 48 snapshot d20 d22 P 1
finish d30
table d19
read d30 1 3
save d0 0 49
save d1 0 41
save d2 0 46
save d3 0 34
save d4 0 44
finish d30
write d30 13 512*e3 512*6a 512*4b
tick 2
status d40
remove d40
remove d22
remove d12
load d2 0 512*00 1*53 1*6e 1*41 1*70 1*01 3*00 1*01 3*00 1*01 499*00
create d12 0 45 flakey d2 1 3 1 1 error_reads
create d22 0 45 dust d12 0 1024
create d40 0 48 snapshot d20 d22 P 1
remove d41
remove d23
remove d13
load d3 0 1*53 1*6e 1*41 1*70 1*01 3*00 1*01 3*00 1*01 499*00
create d41 0 48 snapshot d20 d3 P 1
write d42 11 512*2f 512*3d 512*62 512*2d 512*f2 512*35
tick 3
save d0 0 49
save d1 0 41
save d2 0 46
save d3 0 34
save d4 0 44
write d42 3 512*2c
read d42 0 1
write d29 17 512*75 512*47
message d21 0 addbadblock 20
settle d40
remove d41
remove d23
remove d13
load d3 0 1*53 1*6e 1*41 1*70 1*01 3*00 1*01 3*00 1*01 499*00
create d41 0 48 snapshot d20 d3 P 1
settle d30
message d24 0 addbadblock 32
save d0 0 49
save d1 0 41
save d2 0 46
save d3 0 34
save d4 0 44
resume d41
merge d42
settle d30
settle d40
read d40 41 2
read d42 11 4
settle d30
settle d30
status d30
tick 2
resume d30
settle d30
status d30
tick 2
resume d30
finish d30
create d42 0 48 snapshot d20 d4 P 1
write d40 59 512*94 512*9f
write d41 9 512*23 512*7a 512*ae 512*e1 512*76 512*e4
write d30 30 512*96 512*13 512*ed
write d40 3 512*8f 512*89 512*e5
write d30 6 512*e8 512*68 512*80 512*8a 512*43 512*58
table d13
save d0 0 49
save d1 0 41
save d2 0 46
save d3 0 34
save d4 0 44
write d30 33 512*82 512*f4 512*d7 512*a9 512*35
write d40 20 512*f8 512*dc 512*e5 512*25 512*b1 512*9a
settle d40
settle d30
load d1 22 512*1b 1024*b5 512*d3 512*5c
write d42 29 512*39 512*5e 512*ad
write d40 25 512*ca 512*cc 512*a0 512*5e 512*a1 512*3a
remove d42
remove d24
remove d14
load d4 0 1*53 1*6e 1*41 1*70 1*01 3*00 1*01 3*00 1*01 499*00
create d42 0 48 snapshot d20 d4 P 1
save d0 0 49
save d1 0 41
save d2 0 46
save d3 0 34
save d4 0 44
status d42
write d30 5 512*a1 512*d4 512*22 512*fd
write d30 24 512*ce 512*60
write d30 7 512*01
finish d40
settle d30
write d43 9 512*7d 512*03 512*7e 512*ed 512*86 512*ec
write d30 3 512*3b 512*6f 512*95
save d0 0 49
save d1 0 41
save d2 0 46
save d3 0 34
save d4 0 44
settle d42
read d41 7 4
read d42 2 5
resume d41
merge d42
create d9 0 24 snapshot d0 d2 P 3
write d30 26 512*b2 512*6c 512*8b 512*cf 512*8d 512*bc
status d30
write d30 35 512*59 512*5e 512*29 512*db 512*a8 512*a7
settle d42
message d23 0 enable
settle d30
settle d30
status d30
tick 0
resume d30
finish d30
create d42 0 48 snapshot d20 d4 P 1
write d30 8 512*20 512*0e
save d0 18 3
write d30 11 512*7c 512*5c 512*8d 512*0e 512*77
save d0 0 49
save d1 0 41
save d2 0 46
save d3 0 34
save d4 0 44
write d30 20 512*c4 512*81 512*94 512*c2 512*5d 512*c2
write d40 41 512*4a 512*25
message d20 0 countbadblocks
remove d30
message d20 0 listbadblocks
write d42 32 512*38 512*75
write d30 10 512*86 512*02 512*a4
write d40 16 512*c2 512*7a 512*db
save d0 0 49
save d1 0 41
save d2 0 46
save d3 0 34
save d4 0 44
write d30 17 512*b2 512*cd 512*6f
stop d30
create d30 0 48 snapshot-origin d20
create d41 0 48 snapshot d20 d3 P 1
remove d40
remove d22
remove d12
load d2 0 1024*00
create d12 0 45 flakey d2 1 3 1 1 error_reads
create d22 0 45 dust d12 0 1024
create d40 0 48 snapshot d20 d22 P 1
remove d41
remove d23
remove d13
load d3 0 1*53 1*6e 1*41 1*70 1*01 3*00 1*01 3*00 1*01 499*00
create d41 0 48 snapshot d20 d3 P 1
tick 1
write d40 9 512*b8 512*f1 512*8b 512*0e 512*2d 512*2e
write d42 5 512*bb 512*b8 512*b9 512*c1 512*d3
write d30 40 512*dd 512*b4 512*cc 512*a6 512*df 512*c6
save d0 0 49
save d1 0 41
save d2 0 46
save d3 0 34
save d4 0 44
remove d41
merge d42
write d30 18 512*d5 512*a2 512*d4 512*4d 512*16
read d30 43 3
write d40 1 512*ec 512*ca 512*7c 512*48 512*0d 512*4f
tick 3
message d24 0 addbadblock 11
write d30 34 512*fa
settle d30
status d30
tick 1
resume d30
finish d30
create d42 0 48 snapshot d20 d4 P 1
remove d42
remove d24
remove d14
load d4 0 1*53 1*6e 1*41 1*70 4*00 1*01 3*00 1*01 27*00 1*10 471*00
create d42 0 48 snapshot d20 d4 P 1
stop d31
create d40 0 48 snapshot d20 d22 P 1
create d42 0 48 snapshot d20 d4 P 1
write d30 7 512*cf 512*7c
create d6 0 8 error
message d22 0 addbadblock 22
status d30
save d0 0 49
save d1 0 41
save d2 0 46
save d3 0 34
save d4 0 44
read d30 16 4
save d1 24 3
read d30 12 5
message d22 0 addbadblock 18
load d4 36 512*c0 512*f2 512*00
write d30 63 512*6c
write d30 41 512*27
save d4 7 3
save d0 0 49
save d1 0 41
save d2 0 46
save d3 0 34
save d4 0 44
message d21 0 enable
remove d41
remove d23
remove d13
load d3 0 512*00
create d41 0 48 snapshot d20 d3 P 1
read d30 9 4
tick 3
read d41 14 4
table d18
write d41 23 512*fe 512*86 512*0c
write d30 36 512*9b 512*72
save d0 0 49
save d1 0 41
save d2 0 46
save d3 0 34
save d4 0 44
write d40 2 512*6b 512*83 512*b1 512*d3 512*f5
finish d42
message d24 0 removebadblock 6
save d2 0 2
read d40 15 2
settle d17
status d30
write d40 45 512*e6 512*3d
save d0 0 49
save d1 0 41
save d2 0 46
save d3 0 34
save d4 0 44
settle d30
message d21 0 countbadblocks
remove d30
write d30 0 512*67 512*d4
stop d30
create d30 0 48 snapshot-origin d20
create d40 0 48 snapshot d20 d22 P 1
create d42 0 48 snapshot d20 d4 P 1
write d30 13 512*3f 512*00 512*58
read d30 20 4
resume d42
save d0 0 49
save d1 0 41
save d2 0 46
save d3 0 34
save d4 0 44
write d41 17 512*ce 512*a3 512*50 512*c7
message d20 0 enable
remove d40
remove d22
remove d12
load d2 2 1*09 7*00 1*02 6*00 1*21 1*0a 7*00 1*03 7*00 1*0b 7*00 1*04 7*00 1*0c 7*00 1*05 7*00 1*0d 7*00 1*06 7*00 1*0e 7*00 1*07 7*00 1*28 7*00 1*08 7*00 1*29 7*00 1*09 7*00 1*2a 7*00 1*0a 7*00 1*2b 7*00 1*0b 7*00 1*2c 7*00 1*0c 7*00 1*2d 7*00 1*0d 7*00 1*12 7*00 1*0e 7*00 1*13 7*00 1*0f 7*00 1*14 7*00 1*10 7*00 1*15 7*00 1*11 7*00 1*16 7*00 1*12 7*00 1*01 7*00 1*13 7*00 1*02 7*00 1*14 7*00 1*03 7*00 1*15 7*00 1*04 7*00 1*16 7*00 1*05 7*00 1*17 7*00 1*06 7*00 1*18 7*00 1*22 7*00 1*19 7*00 1*07 7*00 1*1a 7*00 1*08 7*00 1*1b 103*00
create d12 0 45 flakey d2 1 3 1 1 error_reads
create d22 0 45 dust d12 0 1024
create d40 0 48 snapshot d20 d22 P 1
read d30 30 3
read d30 4 1
create d42 0 39 snapshot d21 d24 P 2
write d30 25 512*da 512*69 512*ee
status d30
save d0 0 49
save d1 0 41
save d2 0 46
save d3 0 34
save d4 0 44
remove d41
remove d23
remove d13
load d3 0 512*00
create d41 0 48 snapshot d20 d3 P 1
write d40 14 512*37 512*31 512*ee 512*52
tick 3
merge d41
read d30 0 48
settle d30
read d30 0 48
create d44 0 38 snapshot d34 d41 P 2
remove d41
write d41 33 512*2a 512*74 512*2d 512*91
write d42 15 512*65 512*c4 512*14
merge d41
write d30 14 512*6b 512*24
write d42 8 512*22 512*6e 512*f4 512*64 512*33
settle d30
status d30
tick 2
resume d30
settle d30
status d30
tick 2
resume d30
finish d30
create d41 0 48 snapshot d20 d3 P 1
write d30 17 512*4e 512*d3 512*da 512*3b 512*50
stop d30
create d30 0 48 snapshot-origin d20
create d40 0 48 snapshot d20 d22 P 1
create d41 0 48 snapshot d20 d3 P 1
status d48
write d30 31 512*41 512*d7
save d0 0 49
save d1 0 41
save d2 0 46
save d3 0 34
save d4 0 44
merge d41
tick 3
write d30 7 512*c9 512*9e 512*58 512*4e
remove d40
create d40 0 48 snapshot d20 d22 P 1
remove d40
remove d22
remove d12
load d2 1 1*53 1*6e 1*41 1*70 4*00 1*01 3*00 1*01 11*00 1*1a 487*00
create d12 0 45 flakey d2 1 3 1 1 error_reads
create d22 0 45 dust d12 0 1024
create d40 0 48 snapshot d20 d22 P 1
load d4 8 512*89 512*cd
read d40 7 2
write d40 5 512*ca 512*73 512*fc
stop d31
create d41 0 48 snapshot d20 d3 P 1
create d42 0 48 snapshot d20 d4 P 1
save d0 0 49
save d1 0 41
save d2 0 46
save d3 0 34
save d4 0 44
read d40 45 3
load d23 10 512*93 512*6d 512*68 512*66 512*70
settle d30
message d20 0 removebadblock 42
stop d31
create d40 0 48 snapshot d20 d22 P 1
create d41 0 48 snapshot d20 d3 P 1
create d42 0 48 snapshot d20 d4 P 1
message d23 0 addbadblock 3
save d24 0 5
finish d41
save d0 0 49
save d1 0 41
save d2 0 46
save d3 0 34
save d4 0 44
write d41 1 512*ff 512*70
save d2 3 2
finish d30
save d2 27 6
remove d41
create d41 0 48 snapshot d20 d3 P 1
remove d41
remove d23
remove d13
load d3 1 30*00 1*09 481*00
create d41 0 48 snapshot d20 d3 P 1
write d30 12 512*bd 512*34 512*15 512*44 512*a9 512*e5
write d30 36 512*27
resume d40
save d0 0 49
save d1 0 41
save d2 0 46
save d3 0 34
save d4 0 44
remove d42
create d42 0 48 snapshot d20 d4 P 1
remove d41
remove d23
remove d13
load d3 0 512*00
create d41 0 48 snapshot d20 d3 P 1
write d42 1 512*3b 512*89 512*05
settle d30
write d30 21 512*ab
settle d42
resume d30
message d21 0 enable
save d0 0 49
save d1 0 41
save d2 0 46
save d3 0 34
save d4 0 44
merge d42
write d40 7 512*62 512*7d 512*cc 512*13 512*a3
read d40 8 3
remove d42
create d42 0 48 snapshot d20 d4 P 1
table d21
settle d40
settle d30
read d40 16 1
save d0 0 49
save d1 0 41
save d2 0 46
save d3 0 34
save d4 0 44
save d4 14 3
write d42 3 512*d8 512*b3
write d30 8 512*81 512*7e 512*3e 512*1b 512*aa 512*52
save d45 4 6
load d3 12 512*2a 512*03
tick 2
table d47
write d30 41 512*5d 512*ae 512*b1 512*11 512*38 512*da
save d0 0 49
save d1 0 41
save d2 0 46
save d3 0 34
save d4 0 44
read d30 42 3
write d40 12 512*45 512*0b 512*5d
write d30 41 512*61 512*7f 512*a3 512*53 512*48
read nosuch 0 0
read d42 15 4
write d30 7 512*d9 512*9a 512*2c 512*47 512*a0 512*d6
message d24 0 addbadblock 2
read d30 19 3
save d0 0 49
save d1 0 41
save d2 0 46
save d3 0 34
save d4 0 44
write d30 41 512*8c 512*40 512*8f 512*c9 512*dd 512*37
read d30 0 6
message d23 0 disable
resume d36
write d30 31 512*7b 512*70
save d4 34 3
save d1 16 5
resume d30
save d0 0 49
save d1 0 41
save d2 0 46
save d3 0 34
save d4 0 44
merge d40
write d30 21 512*36 512*54 512*b0 512*73 512*1b 512*66
message d20 0 addbadblock 24
disk d0 46
status d41
write d30 17 512*12 512*4c 512*77 512*f5 512*06
read d30 45 1
read d30 33 2
settle d30
status d30
tick 2
resume d30
settle d30
status d30
tick 0
resume d30
finish d30
create d40 0 48 snapshot d20 d22 P 1
remove d42
create d42 0 48 snapshot d20 d4 P 1
write d30 12 512*52 512*64 512*9c 512*b7 512*ee
read d30 11 6
remove d42
create d42 0 48 snapshot d20 d4 P 1
remove d42
remove d24
remove d14
load d4 2 15*10 1*0c 496*10
create d42 0 48 snapshot d20 d4 P 1
read d30 39 3
write d40 9 512*c4
write d42 1 512*f8 512*47 512*86 512*a5 512*8c
save d0 0 49
save d1 0 41
save d2 0 46
save d3 0 34
save d4 0 44
merge d40
write d42 13 512*68
settle d30
status d30
tick 0
resume d30
settle d30
status d30
tick 0
resume d30
finish d30
create d40 0 48 snapshot d20 d22 P 1
create d22 0 45 dust d12 0 1024
write d42 5 512*b9 512*67 512*fb
remove d41
remove d23
remove d13
load d3 0 512*00
create d41 0 48 snapshot d20 d3 P 1
write d40 17 512*be 512*1c 512*c8
write d30 45 512*e9 512*53
write d30 8 512*04 512*72
tick 3
save d0 0 49
save d1 0 41
save d2 0 46
save d3 0 34
save d4 0 44
write d30 9 512*bc 512*15
merge d41
read d30 24 5
remove d11
write d41 32 512*d3 512*a8 512*f3 512*f9
write d30 37 512*b0
remove d40
create d40 0 48 snapshot d20 d22 P 1
remove d40
remove d22
remove d12
load d2 2 1*09 3*00 1*27 3*00 1*02 6*00 1*21 1*0a 7*00 1*03 7*00 1*0b 7*00 1*04 7*00 1*0c 7*00 1*05 7*00 1*0d 7*00 1*06 7*00 1*0e 7*00 1*07 7*00 1*28 7*00 1*08 7*00 1*29 7*00 1*09 7*00 1*2a 7*00 1*0a 7*00 1*2b 7*00 1*0b 7*00 1*2c 7*00 1*0c 7*00 1*2d 7*00 1*0d 7*00 1*12 7*00 1*0e 7*00 1*13 7*00 1*0f 7*00 1*14 7*00 1*10 7*00 1*15 7*00 1*11 7*00 1*16 7*00 1*12 7*00 1*01 7*00 1*13 7*00 1*02 7*00 1*14 7*00 1*03 7*00 1*15 7*00 1*04 7*00 1*16 7*00 1*05 7*00 1*17 7*00 1*06 7*00 1*18 7*00 1*22 7*00 1*19 7*00 1*07 7*00 1*1a 7*00 1*08 7*00 1*1b 103*00
create d12 0 45 flakey d2 1 3 1 1 error_reads
create d22 0 45 dust d12 0 1024
create d40 0 48 snapshot d20 d22 P 1
settle d30
save d0 0 49
save d1 0 41
save d2 0 46
save d3 0 34
save d4 0 44
write d41 27 512*9c 512*0f 512*1a 512*00
resume d40
load d0 9 512*47 512*5e 512*88 512*16
save d2 9 2
read d30 16 6
table d9
remove d41
remove d23
remove d13
load d3 3 44*37 1*14 467*37
create d41 0 48 snapshot d20 d3 P 1
settle d30
save d0 0 49
save d1 0 41
save d2 0 46
save d3 0 34
save d4 0 44
read d30 16 2
table d25
stop d31
create d40 0 48 snapshot d20 d22 P 1
create d41 0 48 snapshot d20 d3 P 1
create d42 0 48 snapshot d20 d4 P 1
read d40 15 2
write d41 5 512*59
status d30
read d42 9 1
message d20 0 queryblock 16
save d0 0 49
save d1 0 41
save d2 0 46
save d3 0 34
save d4 0 44
load d0 26 512*4d 512*00 512*93
status d30
save d0 45 3
remove d42
create d42 0 48 snapshot d20 d4 P 1
remove d42
remove d24
remove d14
load d4 1 1*10 7*00 1*02 7*00 1*11 7*00 1*03 7*00 1*12 7*00 1*04 3*00 1*15 3*00 1*13 7*00 1*05 7*00 1*14 7*00 1*06 7*00 1*21 7*00 1*07 7*00 1*22 7*00 1*08 7*00 1*02 7*00 1*09 7*00 1*03 7*00 1*0a 7*00 1*04 7*00 1*0b 7*00 1*05 7*00 1*0c 7*00 1*0e 7*00 1*0d 7*00 1*0f 7*00 1*0e 7*00 1*1b 7*00 1*0f 7*00 1*1c 7*00 1*10 279*00
create d42 0 48 snapshot d20 d4 P 1
resume d30
remove d42
remove d24
remove d14
load d4 0 1*53 1*6e 1*41 1*70 1*01 3*00 1*01 3*00 1*01 27*00 1*10 471*00
create d42 0 48 snapshot d20 d4 P 1
message d24 0 addbadblock 32
write d30 8 512*aa 512*47 512*b8 512*f2 512*38 512*e9
save d0 0 49
save d1 0 41
save d2 0 46
save d3 0 34
save d4 0 44
write d43 16 512*a9 512*67 512*fd 512*a4 512*d0
read d11 6 4
merge d42
message d20 0 listbadblocks
tick 3
tick 2
write d41 0 512*73 512*25
write d40 2 512*6d
save d0 0 49
save d1 0 41
save d2 0 46
save d3 0 34
save d4 0 44
write d30 1 512*c0
settle d41
remove d42
remove d24
remove d14
load d4 2 15*10 1*0c 5*10 1*22 490*10
create d42 0 48 snapshot d20 d4 P 1
resume d41
message d24 0 clearbadblocks
write d30 24 512*ed 512*c8 512*1a 512*ca 512*bb 512*7f
message d23 0 enable
merge d40
settle d30
status d30
tick 2
resume d30
finish d30
create d40 0 48 snapshot d20 d22 P 1
save d0 0 49
save d1 0 41
save d2 0 46
save d3 0 34
save d4 0 44
write d40 7 512*d5
write d41 7 512*07 512*d5
stop d31
create d41 0 48 snapshot d20 d3 P 1
write d41 3 512*65 512*a2
tick 3
read d41 8 6
stop d31
create d42 0 48 snapshot d20 d4 P 1
table d41
save d0 0 49
save d1 0 41
save d2 0 46
save d3 0 34
save d4 0 44
read d30 13 4
disk d1 47
write d42 4 512*d3 512*b5 512*4e 512*fa 512*52
table d35
write d30 32 512*fc 512*25 512*0c
write d30 28 512*87 512*17 512*98 512*c5 512*15 512*e9
merge d41
message d23 0 enable
write d42 7 512*c4 512*aa 512*db 512*98
write d30 5 512*d0 512*e6 512*f1 512*af 512*90 512*23
tick 2
finish d30
message d22 0 queryblock 35
settle d30
status d30
tick 1
resume d30
finish d30
create d41 0 48 snapshot d20 d3 P 1
tick 1
save d0 0 49
save d1 0 41
save d2 0 46
save d3 0 34
save d4 0 44
load d2 42 512*9d
write d41 61 512*f5 512*ee 512*25 512*fc 512*09 512*fc
load d1 20 512*90 512*fc 512*a5 512*e6 512*33 512*d1
write d40 9 512*6d 512*8e 512*c2 512*b9
finish d30
merge d42
write d40 5 512*50 512*f8 512*bd
settle d41
write d42 10 512*82 512*c2 512*29 512*a9 512*b5
write d30 42 512*c7
write d41 18 512*7b 512*0c 512*fc
merge d42
merge d41
settle d30
status d30
tick 0
resume d30
finish d30
create d42 0 48 snapshot d20 d4 P 1
write d42 6 512*e1 512*38
tick 1
save d0 0 49
save d1 0 41
save d2 0 46
save d3 0 34
save d4 0 44
save d2 13 1
save d1 27 3
write d30 12 512*22
