# Pseudo-random commands over layers that fail: snapshots of one origin in chunks of 1 to 16 sectors, written, spoiled, stale,
# attached again, merges that fail and go on.
# Drawn, and what must be printed was said, by the plain slow machine of `bench/tests/desk_rows`.
disk d0 36
create d10 0 36 flakey d0 0 3 2 1 error_writes
create d20 0 36 dust d10 0 512
disk d1 57
create d21 0 57 dust d1 0 512
disk d2 288
create d12 0 288 flakey d2 0 4 2
create d22 0 288 dust d12 0 1024
disk d3 26
create d13 0 25 flakey d3 1 4 2 1 error_writes
create d23 0 25 dust d13 0 2048
disk d4 34
create d24 0 34 dust d4 0 1024
disk d5 31
create d25 0 31 dust d5 0 1024
disk d6 120
create d16 0 120 flakey d6 0 5 1
create d26 0 120 dust d16 0 2048
disk d7 72
disk d8 256
create d18 0 255 flakey d8 1 4 2 2 error_reads error_writes
disk d9 132
create d19 0 131 flakey d9 1 3 1 1 error_writes
create d30 0 36 snapshot-origin d20
write d30 0 512*00 512*01 512*02 512*03 512*04 512*05 512*06 512*07 512*08 512*09 512*0a 512*0b 512*0c 512*0d 512*0e 512*0f 512*10 512*11 512*12 512*13 512*14 512*15 512*16 512*17 512*18 512*19 512*1a 512*1b 512*1c 512*1d 512*1e 512*1f 512*20 512*21 512*22 512*23
create d40 0 36 snapshot d20 d22 P 16
create d41 0 36 snapshot d20 d23 P 1
create d42 0 36 snapshot d20 d24 P 2
create d43 0 36 snapshot d20 d25 P 1
create d44 0 36 snapshot d20 d26 P 8
create d45 0 36 snapshot d20 d7 P 4
create d46 0 36 snapshot d20 d18 P 16
create d47 0 36 snapshot d20 d19 P 4
remove d40
remove d22
remove d12
load d2 2 1*00 1*01 510*00
create d12 0 288 flakey d2 0 4 2
create d22 0 288 dust d12 0 1024
create d40 0 36 snapshot d20 d22 P 16
save d0 0 36
save d1 0 57
save d2 0 288
save d3 0 26
save d4 0 34
save d5 0 31
save d6 0 120
save d7 0 72
save d8 0 256
save d9 0 132
write d30 0 512*e5
table d35
write d30 16 512*e7 512*07 512*6d 512*cb 512*a4
resume d30
settle d30
settle d30
merge d43
read d30 0 36
settle d30
read d30 0 36
write d42 9 512*93 512*73 512*da 512*cf 512*9b 512*be
message d24 0 addbadblock 10
table d24
write d30 30 512*2c 512*24 512*56 512*cc 512*67
settle d30
status d30
tick 0
resume d30
settle d30
status d30
tick 1
resume d30
finish d30
create d43 0 36 snapshot d20 d25 P 1
write d47 10 512*6a 512*7b
save d0 0 36
save d1 0 57
save d2 0 288
save d3 0 26
save d4 0 34
save d5 0 31
save d6 0 120
save d7 0 72
save d8 0 256
save d9 0 132
read d42 32 4
load d5 1 512*ed 512*5e 512*bf
merge d40
write d30 16 512*70 512*d8 512*14 512*54 512*8c
message d28 0 addbadblock 13
tick 1x
merge d44
write d42 27 512*69
settle d30
status d30
tick 1
resume d30
settle d30
status d30
tick 1
resume d30
finish d30
create d44 0 36 snapshot d20 d26 P 8
write d40 7 512*e3 512*5a 512*a2
save d0 0 36
save d1 0 57
save d2 0 288
save d3 0 26
save d4 0 34
save d5 0 31
save d6 0 120
save d7 0 72
save d8 0 256
save d9 0 132
message d20 0 addbadblock 32
resume d40
remove d41
remove d23
remove d13
load d3 2 8*00 1*02 7*00 1*10 1*1f 6*00 1*03 7*00 1*11 7*00 1*04 7*00 1*12 7*00 1*05 7*00 1*13 7*00 1*06 7*00 1*14 7*00 1*07 7*00 1*1e 7*00 1*08 7*00 1*1f 7*00 1*09 7*00 1*20 7*00 1*0a 7*00 1*21 7*00 1*0b 7*00 1*22 7*00 1*0c 7*00 1*23 7*00 1*0d 7*00 1*15 7*00 1*0e 7*00 1*16 7*00 1*0f 7*00 1*17 7*00 1*10 7*00 1*18 7*00 1*11 7*00 1*19 7*00 1*12 7*00 1*1a 7*00 1*13 7*00 1*1b 7*00 1*14 7*00 1*1c 7*00 1*15 7*00 1*1d 7*00 1*16 7*00 1*01 7*00 1*17 7*00 1*02 7*00 1*18 151*00
create d13 0 25 flakey d3 1 4 2 1 error_writes
create d23 0 25 dust d13 0 2048
create d41 0 36 snapshot d20 d23 P 1
write d39 11 512*5f 512*a1 512*d3 512*50 512*85 512*69
resume d47
save d7 12 6
create d43 0 36 snapshot d20 d25 P 1
message d22 0 enable
save d0 0 36
save d1 0 57
save d2 0 288
save d3 0 26
save d4 0 34
save d5 0 31
save d6 0 120
save d7 0 72
save d8 0 256
save d9 0 132
merge d44
read d45 5 3
message d20 0 enable
read d46 28 3
status nosuch
read d44 14 5
status d30
finish d46
save d0 0 36
save d1 0 57
save d2 0 288
save d3 0 26
save d4 0 34
save d5 0 31
save d6 0 120
save d7 0 72
save d8 0 256
save d9 0 132
write d42 9 512*7d
write d44 17 512*f6 512*26 512*be 512*9a 512*73
write d46 33 512*15 512*24 512*8b 512*e0 512*5d 512*90
read d30 16 3
read d30 19 5
write d47 10 512*05 512*ca 512*3c 512*e4
create d9 0 8 flakey d0 0 0 0
write d30 14 512*07 512*d5 512*cc 512*ac 512*8c 512*92
save d0 0 36
save d1 0 57
save d2 0 288
save d3 0 26
save d4 0 34
save d5 0 31
save d6 0 120
save d7 0 72
save d8 0 256
save d9 0 132
finish d30
table d19
resume d45
tick 1
remove d44
create d44 0 36 snapshot d20 d26 P 8
remove d43
create d43 0 36 snapshot d20 d25 P 1
remove d43
create d43 0 36 snapshot d20 d25 P 1
remove d40
remove d22
remove d12
load d2 0 1*53 1*6e 1*41 1*70 1*01 3*00 1*01 3*00 1*01 499*00
create d12 0 288 flakey d2 0 4 2
create d22 0 288 dust d12 0 1024
create d40 0 36 snapshot d20 d22 P 16
settle d46
save d0 0 36
save d1 0 57
save d2 0 288
save d3 0 26
save d4 0 34
save d5 0 31
save d6 0 120
save d7 0 72
save d8 0 256
save d9 0 132
remove d43
remove d25
remove d15
load d5 0 1*53 1*6e 1*41 1*70 1*01 3*00 1*01 3*00 1*01 499*00
create d25 0 31 dust d5 0 1024
create d43 0 36 snapshot d20 d25 P 1
write d43 10 512*18 512*ff 512*1c 512*0a 512*42 512*79
write d30 23 512*9b 512*38
write d30 11 512*0a
write d40 16 512*60 512*16 512*51 512*b1 512*a8
read d30 21 1
save d5 9 5
remove d45
create d45 0 36 snapshot d20 d7 P 4
save d0 0 36
save d1 0 57
save d2 0 288
save d3 0 26
save d4 0 34
save d5 0 31
save d6 0 120
save d7 0 72
save d8 0 256
save d9 0 132
write d30 24 512*3d 512*5c
write d30 0 512*5f 1024*fd 512*9a 512*88 512*80
message d23 0 queryblock 48
table d16
save d3 8 1
remove d12
remove d46
remove d28
remove d18
load d8 0 1024*00
create d18 0 255 flakey d8 1 4 2 2 error_reads error_writes
create d46 0 36 snapshot d20 d18 P 16
read d30 24 2
save d0 0 36
save d1 0 57
save d2 0 288
save d3 0 26
save d4 0 34
save d5 0 31
save d6 0 120
save d7 0 72
save d8 0 256
save d9 0 132
table d35
settle d45
write d30 4 512*8b 512*a2 512*5b 512*e8
write d45 3 512*25
write d44 18 512*e5
finish d30
save d7 19 4
create d37 0 120 flakey d42 1 2 0 1 error_reads
save d0 0 36
save d1 0 57
save d2 0 288
save d3 0 26
save d4 0 34
save d5 0 31
save d6 0 120
save d7 0 72
save d8 0 256
save d9 0 132
finish d30
status d30
read d43 2 5
tick 3
remove d43
create d43 0 36 snapshot d20 d25 P 1
tick 1
merge d43
disk d6 23
write d45 2 512*7a
write d42 22 512*f9 512*12 512*7d
tick 2
settle d30
status d30
tick 1
resume d30
finish d30
create d43 0 36 snapshot d20 d25 P 1
disk d4 33
save d0 0 36
save d1 0 57
save d2 0 288
save d3 0 26
save d4 0 34
save d5 0 31
save d6 0 120
save d7 0 72
save d8 0 256
save d9 0 132
settle d43
read d30 5 4
remove d44
remove d26
remove d16
load d6 0 1*53 1*6e 1*41 1*70 1*01 3*00 1*01 3*00 1*01 499*00
create d16 0 120 flakey d6 0 5 1
create d26 0 120 dust d16 0 2048
create d44 0 36 snapshot d20 d26 P 8
remove d42
remove d24
remove d14
load d4 0 512*00
create d24 0 34 dust d4 0 1024
create d42 0 36 snapshot d20 d24 P 2
load d1 11 512*17 512*8e 512*3f 512*ed
write d47 10 512*6b
remove d43
create d43 0 36 snapshot d20 d25 P 1
remove d43
remove d25
remove d15
load d5 3 24*cc 1*0a 487*cc
create d25 0 31 dust d5 0 1024
create d43 0 36 snapshot d20 d25 P 1
write d47 13 512*f3 512*d3 512*ea
save d0 0 36
save d1 0 57
save d2 0 288
save d3 0 26
save d4 0 34
save d5 0 31
save d6 0 120
save d7 0 72
save d8 0 256
save d9 0 132
merge d46
finish d30
tick 1
status d30
write d44 7 512*bc 512*05 512*25 512*5c 512*80 512*f5
read d30 16 1
settle d30
status d30
tick 1
resume d30
finish d30
create d46 0 36 snapshot d20 d18 P 16
create d19 0 131 flakey d9 1 3 1 1 error_writes
merge d44
read d30 0 36
settle d30
read d30 0 36
read d30 12 1
merge d43
settle d46
settle d30
status d30
tick 2
resume d30
settle d30
status d30
tick 1
resume d30
finish d30
create d44 0 36 snapshot d20 d26 P 8
settle d30
save d6 16 4
remove d44
create d44 0 36 snapshot d20 d26 P 8
remove d44
remove d26
remove d16
load d6 0 1*53 1*6e 1*41 1*70 1*01 3*00 1*01 3*00 1*01 499*00
create d16 0 120 flakey d6 0 5 1
create d26 0 120 dust d16 0 2048
create d44 0 36 snapshot d20 d26 P 8
tick 3
create d46 0 29 flakey d34 2 1 1 2 error_reads error_writes
save d0 0 36
save d1 0 57
save d2 0 288
save d3 0 26
save d4 0 34
save d5 0 31
save d6 0 120
save d7 0 72
save d8 0 256
save d9 0 132
table d9
write d45 17 512*23 512*aa 512*03 512*84
write d30 30 512*e9 512*c6 512*2f
write d41 6 512*b4 512*99 512*a8 512*3f
write d30 11 512*22 512*43 512*9e 512*2e 512*da 512*39
status d47
write d30 10 512*30 512*bc 512*be 512*34 512*8f 512*63
settle d30
save d0 0 36
save d1 0 57
save d2 0 288
save d3 0 26
save d4 0 34
save d5 0 31
save d6 0 120
save d7 0 72
save d8 0 256
save d9 0 132
status d0
merge d43
settle d30
status d30
tick 0
resume d30
settle d30
status d30
tick 2
resume d30
finish d30
create d43 0 36 snapshot d20 d25 P 1
remove d45
create d45 0 36 snapshot d20 d7 P 4
remove d45
remove d27
remove d17
load d7 0 512*00
create d45 0 36 snapshot d20 d7 P 4
message d20 0 listbadblocks
write d42 8 512*bb 512*f1
save d5 3 6
write d41 16 512*49 512*d8 512*3e 512*64 512*52
merge d42
read d30 0 36
settle d30
read d30 0 36
read d42 16 6
write d30 0 512*c2 512*9e 512*bb 512*b4 512*e2
resume d43
save d4 1 5
tick 1
settle d30
status d30
tick 1
resume d30
finish d30
create d42 0 36 snapshot d20 d24 P 2
save d0 0 36
save d1 0 57
save d2 0 288
save d3 0 26
save d4 0 34
save d5 0 31
save d6 0 120
save d7 0 72
save d8 0 256
save d9 0 132
merge d46
read d30 0 36
settle d30
read d30 0 36
settle d30
status d30
tick 1
resume d30
settle d30
status d30
tick 0
resume d30
settle d30
status d30
tick 1
resume d30
finish d30
create d46 0 36 snapshot d20 d18 P 16
write d40 16 512*fb 512*a0 512*04 512*81 512*4e 512*57
settle d44
write d34 10 512*87 512*bf
read d30 9 3
status d30
merge d40
disk d8 46
save d0 0 36
save d1 0 57
save d2 0 288
save d3 0 26
save d4 0 34
save d5 0 31
save d6 0 120
save d7 0 72
save d8 0 256
save d9 0 132
write d40 13 512*7c 512*4a 512*dd 512*72 512*06 512*28
status d30
merge d40
read d30 32 4
remove d44
create d44 0 36 snapshot d20 d26 P 8
read d30 6 3
write d44 5 512*5c
settle d30
save d0 0 36
save d1 0 57
save d2 0 288
save d3 0 26
save d4 0 34
save d5 0 31
save d6 0 120
save d7 0 72
save d8 0 256
save d9 0 132
write d42 3 512*2f 512*b3
settle d30
read d30 5 6
write d47 6 512*38 512*a3 512*ff 512*6d 512*58 512*90
write d45 24 512*f2 512*88 512*fb
remove d41
create d41 0 36 snapshot d20 d23 P 1
tick 3
save d9 43 1
save d0 0 36
save d1 0 57
save d2 0 288
save d3 0 26
save d4 0 34
save d5 0 31
save d6 0 120
save d7 0 72
save d8 0 256
save d9 0 132
write d30 0 512*a7 512*35 512*a1 512*c5 512*6b 512*eb
merge d44
write d41 10 512*83 512*42
disk d18 48
message d23 0 removebadblock 3
read d30 23 5
read d30 5 4
read d44 52 4
settle d30
status d30
tick 0
resume d30
settle d30
status d30
tick 2
resume d30
finish d30
create d44 0 36 snapshot d20 d26 P 8
message d22 0 enable
read d30 0
write d30 39 512*dd 512*ad 512*c1
message d23 0 enable
settle d30
status d45
save d0 0 36
save d1 0 57
save d2 0 288
save d3 0 26
save d4 0 34
save d5 0 31
save d6 0 120
save d7 0 72
save d8 0 256
save d9 0 132
settle d30
settle d46
read d41 8 1
read d46 0 6
merge d44
write d30 11 512*63 512*ee 512*b8
message d24 0 addbadblock 43
save d1 5 5
save d0 0 36
save d1 0 57
save d2 0 288
save d3 0 26
save d4 0 34
save d5 0 31
save d6 0 120
save d7 0 72
save d8 0 256
save d9 0 132
table d36
write d30 10 512*1a 512*73 512*ef
resume d44
stop d31
create d42 0 36 snapshot d20 d24 P 2
create d43 0 36 snapshot d20 d25 P 1
create d44 0 36 snapshot d20 d26 P 8
create d45 0 36 snapshot d20 d7 P 4
create d46 0 36 snapshot d20 d18 P 16
create d47 0 36 snapshot d20 d19 P 4
write d30 20 512*df 512*4f 512*ab 512*e5 512*72
read d47 26 1
write d30 34 512*78
create d2 0 13 snapshot-origin d46
save d0 0 36
save d1 0 57
save d2 0 288
save d3 0 26
save d4 0 34
save d5 0 31
save d6 0 120
save d7 0 72
save d8 0 256
save d9 0 132
write d30 17 512*35 512*5a 512*4e 512*6e
remove d45
create d45 0 36 snapshot d20 d7 P 4
read d30 27 6
message d29 0 queryblock 6
merge d40
read d47 5 2
settle d43
create d18 0 48 error
status d43
settle d30
read d30 0 2
read d30 8 2
settle d30
status d30
tick 0
resume d30
settle d30
status d30
tick 0
resume d30
finish d30
create d40 0 36 snapshot d20 d22 P 16
remove d42
create d42 0 36 snapshot d20 d24 P 2
remove d12
status d41
save d0 0 36
save d1 0 57
save d2 0 288
save d3 0 26
save d4 0 34
save d5 0 31
save d6 0 120
save d7 0 72
save d8 0 256
save d9 0 132
status d30
read d47 8 4
write d30 19 512*13 512*ac 512*26 512*3b 512*1a
tick 1
read d30 46 5
write d43 3 512*3c 512*31 512*d3
read d30 1 5
message d22 0 addbadblock 32
save d0 0 36
save d1 0 57
save d2 0 288
save d3 0 26
save d4 0 34
save d5 0 31
save d6 0 120
save d7 0 72
save d8 0 256
save d9 0 132
write d30 17 512*89 512*8e
read d30 14 1
read d30 1 6
write d41 61 512*73 512*1b
write d18 4 512*e4 512*93 512*cc 512*16
load d5 2 512*4c 512*68
message d20 0 clearbadblocks
remove d47
create d47 0 36 snapshot d20 d19 P 4
remove d47
create d47 0 36 snapshot d20 d19 P 4
save d0 0 36
save d1 0 57
save d2 0 288
save d3 0 26
save d4 0 34
save d5 0 31
save d6 0 120
save d7 0 72
save d8 0 256
save d9 0 132
settle d30
message d20 1 enable
write d42 11 512*e3 512*74 512*33 512*a3
write d47 23 512*35 512*0e 512*79 512*b0
read d31 43 3
write d47 6 512*5e 512*c3 512*4b
remove d41
remove d23
remove d13
load d3 0 1024*00
create d13 0 25 flakey d3 1 4 2 1 error_writes
create d23 0 25 dust d13 0 2048
create d41 0 36 snapshot d20 d23 P 1
merge d41
read d30 0 36
message d26 0 clearbadblocks
write d30 12 512*2c 512*47 512*d9 512*cf 512*da 512*a6
message d29 0 countbadblocks
create d47 0 36 snapshot d20 d19 P 4
finish d30
settle d30
status d30
tick 0
resume d30
finish d30
create d41 0 36 snapshot d20 d23 P 1
save d0 0 36
save d1 0 57
save d2 0 288
save d3 0 26
save d4 0 34
save d5 0 31
save d6 0 120
save d7 0 72
save d8 0 256
save d9 0 132
write d47 51 512*b9 512*3a 512*16 512*22
write d30 2 512*13 512*cf 512*00 512*e0
write d30 6 512*12 512*ab 512*f2 512*f8
settle d41
write d30 16 512*9c 512*26 512*cb
read d30 1 2
resume d43
write d29 1 512*f9 512*3b
save d0 0 36
save d1 0 57
save d2 0 288
save d3 0 26
save d4 0 34
save d5 0 31
save d6 0 120
save d7 0 72
save d8 0 256
save d9 0 132
read d30 7 5
table d4
read d30 10 5
merge d40
write d30 14 512*8c 512*c1 512*a8 512*ed 512*f5 512*e3
write d44 8 512*fb 512*f5 512*44 512*ec 512*3e 512*a3
write d30 18 512*fe 512*80 512*22 512*8d 512*b2
read d30 32 1
save d0 0 36
save d1 0 57
save d2 0 288
save d3 0 26
save d4 0 34
save d5 0 31
save d6 0 120
save d7 0 72
save d8 0 256
save d9 0 132
remove d40
remove d22
remove d12
load d2 0 512*00
create d12 0 288 flakey d2 0 4 2
create d22 0 288 dust d12 0 1024
create d40 0 36 snapshot d20 d22 P 16
resume d41
remove d43
remove d25
remove d15
load d5 0 512*00
create d25 0 31 dust d5 0 1024
create d43 0 36 snapshot d20 d25 P 1
tick 2
read d44 0 4
write d42 3 512*3f
write d30 62 512*07 512*ab 512*01
remove d46
remove d28
remove d18
load d8 0 512*00 1*53 1*6e 1*41 1*70 1*01 3*00 1*01 3*00 1*01 499*00
create d18 0 255 flakey d8 1 4 2 2 error_reads error_writes
create d46 0 36 snapshot d20 d18 P 16
save d0 0 36
save d1 0 57
save d2 0 288
save d3 0 26
save d4 0 34
save d5 0 31
save d6 0 120
save d7 0 72
save d8 0 256
save d9 0 132
message d21 0 queryblock 26
settle d30
create d45 0 36 snapshot d20 d7 P 4
write d30 14 512*7e 512*25 512*2f 512*f3 512*7c
write d30 0 512*37 512*b9 512*86 512*fd 512*df
remove d43
create d43 0 36 snapshot d20 d25 P 1
remove d43
remove d25
remove d15
load d5 1 1*20 7*00 1*02 7*00 1*21 7*00 1*03 7*00 1*22 4*00 1*25 2*00 1*04 7*00 1*23 7*00 1*05 7*00 1*10 7*00 1*06 7*00 1*11 7*00 1*07 7*00 1*12 7*00 1*08 7*00 1*13 7*00 1*09 7*00 1*14 7*00 1*0a 7*00 1*15 7*00 1*0b 7*00 1*16 7*00 1*0c 7*00 1*17 7*00 1*0d 7*00 1*18 7*00 1*0e 7*00 1*19 7*00 1*0f 7*00 1*1a 7*00 1*10 7*00 1*1b 7*00 1*11 7*00 1*1c 7*00 1*12 7*00 1*1d 7*00 1*13 7*00 1*1e 7*00 1*14 7*00 1*1f 7*00 1*15 15*00 1*16 7*00 1*01 7*00 1*17 7*00 1*02 7*00 1*18 7*00 1*03 7*00 1*19 7*00 1*04 7*00 1*1a 7*00 1*05 7*00 1*1b 7*00 1*06 7*00 1*1c 7*00 1*07 7*00 1*1d 7*00 1*08 7*00 1*1e 55*00
create d25 0 31 dust d5 0 1024
create d43 0 36 snapshot d20 d25 P 1
merge d44
message d22 0 queryblock 11
save d0 0 36
save d1 0 57
save d2 0 288
save d3 0 26
save d4 0 34
save d5 0 31
save d6 0 120
save d7 0 72
save d8 0 256
save d9 0 132
write d30 27 512*21 512*48 512*fc 512*b4 512*30
message d21 0 addbadblock 23
write d30 6 512*93 512*b6 512*aa 512*eb 512*82 512*b8
tick 2
read d30 9 4
merge d47
remove d45
remove d27
remove d17
load d7 0 512*00
create d45 0 36 snapshot d20 d7 P 4
remove d45
create d45 0 36 snapshot d20 d7 P 4
save d0 0 36
save d1 0 57
save d2 0 288
save d3 0 26
save d4 0 34
save d5 0 31
save d6 0 120
save d7 0 72
save d8 0 256
save d9 0 132
finish d30
message d21 0 addbadblock 7
read d43 19 1
finish d30
read d47 11 2
merge d47
read d45 13 4
