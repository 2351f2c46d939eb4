# Pseudo-random commands over layers that fail: snapshots of one origin in chunks of 1 to 16 sectors, written, spoiled, stale,
# attached again, merges that fail and go on.
# Drawn, and what must be printed was said, by the plain slow machine of `bench/tests/desk_rows`.
disk d0 46
create d20 0 46 dust d0 0 2048
disk d1 64
disk d2 27
create d12 0 26 flakey d2 1 6 1 1 error_reads
create d22 0 26 dust d12 0 512
disk d3 50
create d13 0 49 flakey d3 1 4 1
disk d4 496
create d24 0 496 dust d4 0 1024
disk d5 72
disk d6 48
create d26 0 48 dust d6 0 2048
create d30 0 46 snapshot-origin d20
write d30 0 512*00 512*01 512*02 512*03 512*04 512*05 512*06 512*07 512*08 512*09 512*0a 512*0b 512*0c 512*0d 512*0e 512*0f 512*10 512*11 512*12 512*13 512*14 512*15 512*16 512*17 512*18 512*19 512*1a 512*1b 512*1c 512*1d 512*1e 512*1f 512*20 512*21 512*22 512*23 512*24 512*25 512*26 512*27 512*28 512*29 512*2a 512*2b 512*2c 512*2d
create d40 0 46 snapshot d20 d22 P 1
create d41 0 46 snapshot d20 d13 P 2
create d42 0 46 snapshot d20 d24 P 16
create d43 0 46 snapshot d20 d5 P 8
create d44 0 46 snapshot d20 d26 P 4
stop d31
create d40 0 46 snapshot d20 d22 P 1
create d42 0 46 snapshot d20 d24 P 16
save d0 0 46
save d1 0 64
save d2 0 27
save d3 0 50
save d4 0 496
save d5 0 72
save d6 0 48
create d38 0 5 error
merge d41
read d30 0 46
settle d30
read d30 0 46
merge d40
read d44 40 4
create d1 0 27 flakey d18 0 0 0 1 error_writes
write d30 14 512*9c 512*c8 512*d4 512*85 512*a1
read d30 22 4
write d30 15 512*e5 512*6f 512*9a
finish d30
settle d30
status d30
tick 0
resume d30
settle d30
status d30
tick 2
resume d30
finish d30
create d41 0 46 snapshot d20 d13 P 2
save d46 49 5
merge d40
read d30 0 46
load d2 24 512*c8 512*42
save d6 1 4
settle d42
write d30 4 512*fc
message d25 0 removebadblock 6
settle d30
status d30
tick 0
resume d30
settle d30
status d30
tick 1
resume d30
settle d30
status d30
tick 1
resume d30
finish d30
create d40 0 46 snapshot d20 d22 P 1
stop d31
create d42 0 46 snapshot d20 d24 P 16
create d43 0 46 snapshot d20 d5 P 8
write d43 12 512*c6 512*99
merge d43
read d30 0 46
write d30 13 512*97
read d42 13 2
disk d1 29
write d30 22 512*58 512*98
write d30 10 512*a5
write d30 26 512*2b 512*f0 512*d1 512*88 512*20 512*af
save d2 6 2
settle d30
status d30
tick 0
resume d30
settle d30
status d30
tick 0
resume d30
finish d30
create d43 0 46 snapshot d20 d5 P 8
write d42 30 512*fa 512*f7 512*a5 512*d0 512*c2
save d0 0 46
save d1 0 64
save d2 0 27
save d3 0 50
save d4 0 496
save d5 0 72
save d6 0 48
settle d43
write d30 14 512*43 512*24 512*11
write d40 6 512*53 512*c7
settle d30
message d22 0 addbadblock 34
remove d26
create d9 0 8 flakey d0 0 0 0
resume d42
save d0 0 46
save d1 0 64
save d2 0 27
save d3 0 50
save d4 0 496
save d5 0 72
save d6 0 48
write d30 12 512*3f 512*d6 512*3e 512*e7 512*65
create d40 0 46 snapshot d20 d22 P 1
remove d40
remove d22
remove d12
load d2 0 1024*00
create d12 0 26 flakey d2 1 6 1 1 error_reads
create d22 0 26 dust d12 0 512
create d40 0 46 snapshot d20 d22 P 1
remove d41
create d41 0 46 snapshot d20 d13 P 2
remove d41
remove d23
remove d13
load d3 3 1*02 7*00 1*02 7*00 1*09 7*00 1*03 7*00 1*08 7*00 1*04 6*00 1*14 1*07 7*00 1*05 455*00
create d13 0 49 flakey d3 1 4 1
create d41 0 46 snapshot d20 d13 P 2
remove d41
remove d23
remove d13
load d3 0 1024*00
create d13 0 49 flakey d3 1 4 1
create d41 0 46 snapshot d20 d13 P 2
remove d40
create d40 0 46 snapshot d20 d22 P 1
resume d43
write d30 4 512*09 512*61 512*43
save d0 0 46
save d1 0 64
save d2 0 27
save d3 0 50
save d4 0 496
save d5 0 72
save d6 0 48
disk d5 20
read nosuch 0 0
read d44 40 5
table d45
merge d40
read d30 0 46
settle d41
merge d44
read d30 4 5
write d30 12 512*23 512*79 512*a5 512*ce 512*79
finish d41
settle d30
status d30
tick 2
resume d30
settle d30
status d30
tick 0
resume d30
settle d30
status d30
tick 1
resume d30
finish d30
create d40 0 46 snapshot d20 d22 P 1
write d30 1 512*87 512*c4 512*20
write d30 9 512*7a 512*df
write d41 30 512*7d 512*b4 512*f8 512*5f 512*21
save d0 0 46
save d1 0 64
save d2 0 27
save d3 0 50
save d4 0 496
save d5 0 72
save d6 0 48
merge d42
stop d31
create d40 0 46 snapshot d20 d22 P 1
create d41 0 46 snapshot d20 d13 P 2
create d42 0 46 snapshot d20 d24 P 16
create d44 0 46 snapshot d20 d26 P 4
write d30 22 512*57 512*af
write d30 15 512*86 512*e3 512*6b
merge d41
settle d30
status d30
tick 1
resume d30
settle d30
status d30
tick 1
resume d30
settle d30
status d30
tick 1
resume d30
finish d30
create d41 0 46 snapshot d20 d13 P 2
settle d43
status d30
status nosuch
save d0 0 46
save d1 0 64
save d2 0 27
save d3 0 50
save d4 0 496
save d5 0 72
save d6 0 48
resume d30
remove d40
create d40 0 46 snapshot d20 d22 P 1
tick 3
create d9 0 8 flakey d0 0 0 0
read d43 16 6
message d20 0 listbadblocks
resume d30
remove d41
remove d23
remove d13
load d3 0 1024*00
create d13 0 49 flakey d3 1 4 1
create d41 0 46 snapshot d20 d13 P 2
save d0 0 46
save d1 0 64
save d2 0 27
save d3 0 50
save d4 0 496
save d5 0 72
save d6 0 48
write d30 24 512*12 512*16 512*0c
write d41 31 512*58 512*67 512*0c
remove d44
remove d26
remove d16
load d6 0 512*00
create d26 0 48 dust d6 0 2048
create d44 0 46 snapshot d20 d26 P 4
write d41 3 512*1a 512*bf 512*01
merge d42
save d1 34 1
settle d30
status d30
tick 0
resume d30
finish d30
create d42 0 46 snapshot d20 d24 P 16
remove d43
create d43 0 46 snapshot d20 d5 P 8
remove d43
remove d25
remove d15
load d5 2 35*00 1*13 476*00
create d43 0 46 snapshot d20 d5 P 8
remove d40
create d40 0 46 snapshot d20 d22 P 1
settle d30
save d0 0 46
save d1 0 64
save d2 0 27
save d3 0 50
save d4 0 496
save d5 0 72
save d6 0 48
finish d30
write d41 13 512*9c
tick 3
settle d30
remove d43
remove d25
remove d15
load d5 2 35*00 1*24 476*00
create d43 0 46 snapshot d20 d5 P 8
tick 2
resume d40
write d30 18 512*70 512*7b 512*7a 512*10
save d0 0 46
save d1 0 64
save d2 0 27
save d3 0 50
save d4 0 496
save d5 0 72
save d6 0 48
create d12 0 26 flakey d2 1 6 1 1 error_reads
create d13 0 49 flakey d3 1 4 1
finish d41
write d43 9 512*47 512*1f 512*83 512*ac 512*b7
merge d42
read d30 0 46
settle d30
read d30 0 46
settle d30
status d30
tick 1
resume d30
settle d30
status d30
tick 0
resume d30
settle d30
status d30
tick 1
resume d30
finish d30
create d42 0 46 snapshot d20 d24 P 16
write d30 29 512*9e
merge d43
read d30 0 46
settle d30
read d30 0 46
write d40 0 512*3d
write d30 37 512*3b 512*a7
create d9 0 24 snapshot-merge d0 d2 P 1
remove d20
write d31 7 512*f1 512*47 512*a3
write d43 8 512*b9 512*c5 512*9e
load d1 8 512*5c 512*1e 512*33 512*9e
settle d30
status d30
tick 1
resume d30
finish d30
create d43 0 46 snapshot d20 d5 P 8
finish d30
save d0 0 46
save d1 0 64
save d2 0 27
save d3 0 50
save d4 0 496
save d5 0 72
save d6 0 48
remove d44
remove d26
remove d16
load d6 0 512*00
create d26 0 48 dust d6 0 2048
create d44 0 46 snapshot d20 d26 P 4
write d42 3 512*f7 512*d3
remove d22
read d30 5 6
message d21 0 addbadblock 5
read d30 11 4
write d30 10 512*d6 512*8e 512*ea 512*7b 512*b6 512*01
write d41 7 512*f9 512*20 512*9a
save d0 0 46
save d1 0 64
save d2 0 27
save d3 0 50
save d4 0 496
save d5 0 72
save d6 0 48
read d30 4 6
status d41
settle d43
write d42 32 512*84 512*2c
remove d40
remove d22
remove d12
load d2 4 512*02
create d12 0 26 flakey d2 1 6 1 1 error_reads
create d22 0 26 dust d12 0 512
create d40 0 46 snapshot d20 d22 P 1
settle d30
status d44
read d43 20 2
save d0 0 46
save d1 0 64
save d2 0 27
save d3 0 50
save d4 0 496
save d5 0 72
save d6 0 48
write d41 7 512*57 512*ac
settle d30
write d30 35 512*5d 512*7f
remove d40
create d40 0 46 snapshot d20 d22 P 1
tick 1
tick 2
remove d43
remove d25
remove d15
load d5 0 1*53 1*6e 1*41 1*70 1*01 3*00 1*01 3*00 1*08 25*00 1*09 473*00
create d43 0 46 snapshot d20 d5 P 8
load d5 6 512*a4 512*24
save d0 0 46
save d1 0 64
save d2 0 27
save d3 0 50
save d4 0 496
save d5 0 72
save d6 0 48
read d25 11 5
read d43 11 2
tick 2
message d20 0 listbadblocks
write d30 11 512*f3 512*8d 512*56 512*75 512*e1
status d30
stop d30
create d30 0 46 snapshot-origin d20
create d40 0 46 snapshot d20 d22 P 1
create d41 0 46 snapshot d20 d13 P 2
create d42 0 46 snapshot d20 d24 P 16
create d43 0 46 snapshot d20 d5 P 8
create d44 0 46 snapshot d20 d26 P 4
status d30
save d0 0 46
save d1 0 64
save d2 0 27
save d3 0 50
save d4 0 496
save d5 0 72
save d6 0 48
load d4 1 512*63 512*1b 512*52
write d30 9 512*1b 512*7b 512*e2 512*c1 512*03
status d40
remove d44
create d44 0 46 snapshot d20 d26 P 4
remove d44
create d44 0 46 snapshot d20 d26 P 4
read d30 9 5
create d9 0 24 snapshot d0 d2 P 3
remove d43
remove d25
remove d15
load d5 1 30*00 1*07 481*00
create d43 0 46 snapshot d20 d5 P 8
remove d44
create d44 0 46 snapshot d20 d26 P 4
save d0 0 46
save d1 0 64
save d2 0 27
save d3 0 50
save d4 0 496
save d5 0 72
save d6 0 48
remove d41
remove d23
remove d13
load d3 2 42*00 1*25 469*00
create d13 0 49 flakey d3 1 4 1
create d41 0 46 snapshot d20 d13 P 2
create d14 0 8 snapshot d1 d20 P 4
write d16 54 512*93 512*c3 512*2f 512*1a
write d30 6 512*73 512*8e 512*28 512*5d
remove d44
remove d26
remove d16
load d6 0 1*53 1*6e 1*41 1*70 1*01 3*00 1*01 3*00 1*01 499*00
create d26 0 48 dust d6 0 2048
create d44 0 46 snapshot d20 d26 P 4
remove d12
write d30 3 512*46
message d21 0 addbadblock 34
save d0 0 46
save d1 0 64
save d2 0 27
save d3 0 50
save d4 0 496
save d5 0 72
save d6 0 48
save d34 16 6
read d30 27 3
frobnicate d30
write d40 1 512*62 512*cb 512*90 512*70
message d23 0 addbadblock 10
write d30 36 512*04 512*7a 512*28
read d30 30 6
save d27 11 4
save d0 0 46
save d1 0 64
save d2 0 27
save d3 0 50
save d4 0 496
save d5 0 72
save d6 0 48
finish d40
write d43 5 512*d8 512*03 512*4f 512*45
save d6 43 1
write d30 13 512*76 512*92 512*8c 512*6c 512*f9
message d25 0 enable
write d30 9 512*58 512*76 512*c2
write d30 2 512*f3 512*3c 512*20 512*51 512*da
load d3 35 512*76 512*6a 512*3f 512*06 512*1c 512*92
save d0 0 46
save d1 0 64
save d2 0 27
save d3 0 50
save d4 0 496
save d5 0 72
save d6 0 48
remove d42
create d42 0 46 snapshot d20 d24 P 16
merge d43
stop d31
create d40 0 46 snapshot d20 d22 P 1
create d42 0 46 snapshot d20 d24 P 16
create d43 0 46 snapshot d20 d5 P 8
create d44 0 46 snapshot d20 d26 P 4
status d41
write d44 32 512*ab 512*cb
write d41 3 512*d3 512*8a
remove d44
create d44 0 46 snapshot d20 d26 P 4
remove d44
remove d26
remove d16
load d6 0 1*53 1*6e 1*41 1*70 1*01 3*00 1*01 3*00 1*01 499*00
create d26 0 48 dust d6 0 2048
create d44 0 46 snapshot d20 d26 P 4
remove d42
create d42 0 46 snapshot d20 d24 P 16
save d0 0 46
save d1 0 64
save d2 0 27
save d3 0 50
save d4 0 496
save d5 0 72
save d6 0 48
write d30 18 512*f4 512*70 512*3b 512*ae
write d30 3 512*98
tick 3
create d42 0 46 snapshot d20 d24 P 16
write d30 29 512*c1 512*a9 512*59 512*95 512*72
write d30 24 512*4c 512*bb
write d30 9 512*4b 512*eb 512*ff 512*0d 512*04 512*e4
write d30 38 512*7a 512*b7 512*37 512*2a
save d0 0 46
save d1 0 64
save d2 0 27
save d3 0 50
save d4 0 496
save d5 0 72
save d6 0 48
tick 2
message d20 1 enable
merge d44
read d30 27 6
status d44
write d30 22 512*65 512*67
remove d42
remove d24
remove d14
load d4 0 512*00
create d24 0 496 dust d4 0 1024
create d42 0 46 snapshot d20 d24 P 16
write d30 27 512*2f 512*2e 512*08
save d0 0 46
save d1 0 64
save d2 0 27
save d3 0 50
save d4 0 496
save d5 0 72
save d6 0 48
read d30 6 6
remove d40
remove d22
remove d12
load d2 0 1024*00
create d12 0 26 flakey d2 1 6 1 1 error_reads
create d22 0 26 dust d12 0 512
create d40 0 46 snapshot d20 d22 P 1
resume d30
resume d44
save d1 33 3
write d30 28 512*ad 512*34 512*2b
write d41 16 512*a6 512*e8 512*84 512*f8 512*d8
write d43 29 512*7e 512*f3 512*43 512*dd 512*cb 512*31
save d0 0 46
save d1 0 64
save d2 0 27
save d3 0 50
save d4 0 496
save d5 0 72
save d6 0 48
stop d30
create d30 0 46 snapshot-origin d20
create d40 0 46 snapshot d20 d22 P 1
create d41 0 46 snapshot d20 d13 P 2
create d42 0 46 snapshot d20 d24 P 16
create d43 0 46 snapshot d20 d5 P 8
create d44 0 46 snapshot d20 d26 P 4
resume d30
write d40 23 512*ea 512*99 512*78 512*4b 512*92
write d30 3 512*fb 512*90
write d30 8 512*d4 512*ce 512*cb 512*6a 512*c0
message d22 0 addbadblock 45
finish d30
write d30 14 512*d3 512*f8 512*78 512*40 512*f9 512*0f
save d0 0 46
save d1 0 64
save d2 0 27
save d3 0 50
save d4 0 496
save d5 0 72
save d6 0 48
load d3 7 512*06 512*e0
merge d41
read d30 2 3
message d23 0 removebadblock 12
create d45 0 8 snapshot-origin d13
settle d30
finish d42
create d22 0 26 dust d12 0 512
save d0 0 46
save d1 0 64
save d2 0 27
save d3 0 50
save d4 0 496
save d5 0 72
save d6 0 48
write d30 17 512*72 512*03 512*d1
merge d42
read d30 0 46
settle d30
read d30 0 46
message d25 0 disable
tick 1
tick 2
write d40 10 512*8a 512*21 512*57 512*fc
settle d30
status d30
tick 2
resume d30
settle d30
status d30
tick 1
resume d30
finish d30
create d42 0 46 snapshot d20 d24 P 16
create d9 0 8 flakey d0 0 0 0
disk d6 29
save d0 2 5
write d44 8 512*6c 512*e7 512*99
disk d1 38
message d22 0 enable
save d0 0 46
save d1 0 64
save d2 0 27
save d3 0 50
save d4 0 496
save d5 0 72
save d6 0 48
settle d30
write d40 38 512*fe 512*d8
resume d42
write d30 9 512*6e 512*89 512*a5 512*7d 512*c3 512*3a
stop d31
create d40 0 46 snapshot d20 d22 P 1
create d41 0 46 snapshot d20 d13 P 2
create d42 0 46 snapshot d20 d24 P 16
create d43 0 46 snapshot d20 d5 P 8
create d44 0 46 snapshot d20 d26 P 4
finish d30
remove d12
tick 1
save d0 0 46
save d1 0 64
save d2 0 27
save d3 0 50
save d4 0 496
save d5 0 72
save d6 0 48
write d43 2 512*4f 512*6e 512*f7
status d42
remove d42
remove d24
remove d14
load d4 0 512*00
create d24 0 496 dust d4 0 1024
create d42 0 46 snapshot d20 d24 P 16
create d23 0 12 dust d45 0 500
read d41 15 3
disk d4 25
write d42 19 512*75 512*5f 512*ce 512*74
remove d42
save d0 0 46
save d1 0 64
save d2 0 27
save d3 0 50
save d4 0 496
save d5 0 72
save d6 0 48
write d41 7 512*17 512*92 512*cc 512*8e
remove d42
remove d24
remove d14
load d4 3 1*00 1*1b 510*00
create d24 0 496 dust d4 0 1024
create d42 0 46 snapshot d20 d24 P 16
read d30 20 6
load d32 12 512*f1 512*63 512*ae 512*29
write d44 35 512*b9 512*2d 512*79 512*f6 512*8d
write d44 29 512*7a 512*d2 512*a8
write d30 23 512*09
remove d41
remove d23
remove d13
load d3 0 1024*00
create d13 0 49 flakey d3 1 4 1
create d41 0 46 snapshot d20 d13 P 2
save d0 0 46
save d1 0 64
save d2 0 27
save d3 0 50
save d4 0 496
save d5 0 72
save d6 0 48
settle d44
write d42 5 512*6b
table d30
load d4 45 512*1d 512*8c 512*55 512*ab 512*24
message d20 0 removebadblock 14
merge d40
read d30 28 3
write d41 43 512*d1
save d0 0 46
save d1 0 64
save d2 0 27
save d3 0 50
save d4 0 496
save d5 0 72
save d6 0 48
resume d30
remove d40
create d40 0 46 snapshot d20 d22 P 1
remove d40
create d40 0 46 snapshot d20 d22 P 1
remove d43
create d43 0 46 snapshot d20 d5 P 8
remove d43
create d43 0 46 snapshot d20 d5 P 8
read d17 2 5
message d22 0 countbadblocks
load d4 56 512*5b 512*dd 512*49
read d41 38 4
write d30 4 512*ce 512*b3 512*0b 512*6c 512*b8 512*ef
save d0 0 46
save d1 0 64
save d2 0 27
save d3 0 50
save d4 0 496
save d5 0 72
save d6 0 48
merge d44
read d30 0 46
settle d30
read d30 0 46
write d30 38 512*c7
message d21 0 disable
message d24 0 enable
resume d44
disk d1 35
settle d30
status d30
tick 2
resume d30
settle d30
status d30
tick 0
resume d30
settle d30
status d30
tick 2
resume d30
finish d30
create d44 0 46 snapshot d20 d26 P 4
remove d43
create d43 0 46 snapshot d20 d5 P 8
remove d43
remove d25
remove d15
load d5 0 512*00
create d43 0 46 snapshot d20 d5 P 8
message d20 0 listbadblocks
disk d9 0
save d4 19 6
write d40 5 512*51 512*c8 512*49 512*5c 512*d6
write d44 7 512*e0 512*d0 512*9b 512*a5
