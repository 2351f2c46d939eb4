# Pseudo-random commands over layers that fail: snapshots written, spoiled, stale, attached again, merges that fail and go on.
# Drawn, and what must be printed was said, by the plain slow machine of `bench/tests/desk_rows`.
disk d0 29
create d10 0 29 flakey d0 0 5 2 1 error_writes
disk d1 51
create d21 0 51 dust d1 0 512
disk d2 45
create d12 0 44 flakey d2 1 5 2
disk d3 42
create d13 0 42 flakey d3 0 4 1 2 error_reads error_writes
disk d4 33
create d24 0 33 dust d4 0 512
create d30 0 29 snapshot-origin d10
write d30 0 512*00 512*01 512*02 512*03 512*04 512*05 512*06 512*07 512*08 512*09 512*0a 512*0b 512*0c 512*0d 512*0e 512*0f 512*10 512*11 512*12 512*13 512*14 512*15 512*16 512*17 512*18 512*19 512*1a 512*1b 512*1c
create d40 0 29 snapshot d10 d12 P 1
create d41 0 29 snapshot d10 d13 P 1
create d42 0 29 snapshot d10 d24 P 1
resume d30
save d0 0 29
save d1 0 51
save d2 0 45
save d3 0 42
save d4 0 33
write d30 4 512*b3 512*77
write d22 16 512*f1 512*ac
message d22 0 enable
write d42 4 512*1b 512*20 512*29 512*e0 512*9e 512*4a
read d42 10 4
tick 1
status d30
merge d42
read d30 0 29
write d40 12 512*65 512*3d 512*24 512*82 512*bf
write d40 2 512*27 512*2c
write d30 25 512*58
read d30 2 2
settle d30
status d30
tick 1
resume d30
settle d30
status d30
tick 1
resume d30
settle d30
status d30
tick 2
resume d30
finish d30
create d42 0 29 snapshot d10 d24 P 1
save d0 0 29
save d1 0 51
save d2 0 45
save d3 0 42
save d4 0 33
merge d42
merge d40
merge d42
read d30 0 29
settle d30
read d30 0 29
write d30 3 512*9e 512*41 512*0c 512*85 512*72 512*ee
write d30 9 512*be 512*4a 512*ed 512*f8 512*2e
status d30
write d42 16 512*db 512*3e
read d30 13 3
create d5 0 8 snapshot d30 d3 P 2
settle d30
status d30
tick 2
resume d30
settle d30
status d30
tick 2
resume d30
settle d30
status d30
tick 2
resume d30
finish d30
create d42 0 29 snapshot d10 d24 P 1
write d42 3 512*25 512*66
merge d41
read d30 0 29
settle d30
read d30 0 29
message d24 0 addbadblock 42
settle d30
status d30
tick 1
resume d30
finish d30
create d41 0 29 snapshot d10 d13 P 1
status d42
resume d41
remove d40
remove d22
remove d12
load d2 0 512*00 1*53 1*6e 1*41 1*70 1*01 3*00 1*01 3*00 1*01 499*00
create d12 0 44 flakey d2 1 5 2
create d40 0 29 snapshot d10 d12 P 1
save d0 0 29
save d1 0 51
save d2 0 45
save d3 0 42
save d4 0 33
write d30 14 512*25 512*4b 512*97 512*bf
tick 2
settle d30
message d24 0 addbadblock 13
read d30 25 4
remove d41
create d41 0 29 snapshot d10 d13 P 1
message d44 0 enable
write d30 3 512*93 512*ac 512*ea 512*22 512*f2 512*e5
save d0 0 29
save d1 0 51
save d2 0 45
save d3 0 42
save d4 0 33
write d40 11 512*bb 512*09 512*8d 512*3c
message d23 0 removebadblock 23
merge d42
save d3 11 2
finish d40
tick 1
load d4 9 512*3c 512*75 512*4b 512*6d 512*32
read d30 1 2
save d0 0 29
save d1 0 51
save d2 0 45
save d3 0 42
save d4 0 33
settle d30
remove d41
remove d23
remove d13
load d3 0 1*53 1*6e 1*41 1*70 1*01 3*00 1*01 3*00 1*01 10*00 1*26 488*00
create d13 0 42 flakey d3 0 4 1 2 error_reads error_writes
create d41 0 29 snapshot d10 d13 P 1
status d30
status d41
stop d31
create d40 0 29 snapshot d10 d12 P 1
create d41 0 29 snapshot d10 d13 P 1
create d42 0 29 snapshot d10 d24 P 1
remove d42
remove d24
remove d14
load d4 0 1*53 1*6e 1*41 1*70 1*01 3*00 1*01 3*00 1*01 499*00
create d24 0 33 dust d4 0 512
create d42 0 29 snapshot d10 d24 P 1
write d45 6 512*fb 512*2f 512*7a 512*f8 512*75
write d30 9 512*e7 512*36 512*bc 512*31
save d0 0 29
save d1 0 51
save d2 0 45
save d3 0 42
save d4 0 33
read d30 3 5
finish d30
remove d41
remove d23
remove d13
load d3 0 1*53 1*6e 1*41 1*70 1*01 3*00 1*01 3*00 1*01 10*00 1*26 488*00
create d13 0 42 flakey d3 0 4 1 2 error_reads error_writes
create d41 0 29 snapshot d10 d13 P 1
write d41 3 512*b6 512*6e
save d1 45 3
stop d31
create d40 0 29 snapshot d10 d12 P 1
create d42 0 29 snapshot d10 d24 P 1
merge d41
read d30 0 29
write d30 17 512*63 512*24 512*e3 512*53 512*d3 512*63
write d42 16 512*5b 512*e1
settle d30
status d30
tick 0
resume d30
finish d30
create d41 0 29 snapshot d10 d13 P 1
merge d42
save d0 0 29
save d1 0 51
save d2 0 45
save d3 0 42
save d4 0 33
write d30 4 512*bb
read d30 8 5
write d30 18 512*ac 512*23 512*a9
stop d31
create d40 0 29 snapshot d10 d12 P 1
create d42 0 29 snapshot d10 d24 P 1
create d0 0 13 dust d14 0 500
merge d41
write d30 11 512*82 512*d9 512*77 512*2d
write d40 14 512*4e 512*e3 512*51
load d1 23 512*c3 512*b0
create d46 0 25 flakey d25 0 2 1 2 error_reads error_writes
create d43 0 17 dust d48 0 512
write d30 6 512*bc 512*62 512*01 512*9d 512*23
settle d30
status d30
tick 0
resume d30
finish d30
create d41 0 29 snapshot d10 d13 P 1
tick 2
tick 1
save d0 0 29
save d1 0 51
save d2 0 45
save d3 0 42
save d4 0 33
write d30 9 512*87
write d42 49 512*8c 512*0e 512*36 512*55 512*b5
tick 2
merge d40
write d30 10 512*c9
status d30
tick 1
settle d30
save d0 0 29
save d1 0 51
save d2 0 45
save d3 0 42
save d4 0 33
write d30 1 512*ea 512*03
save d2 4 2
save d0 3 5
write d30 3 512*f9 512*03 512*f8 512*90
read d42 0 4
stop d31
create d40 0 29 snapshot d10 d12 P 1
create d41 0 29 snapshot d10 d13 P 1
create d42 0 29 snapshot d10 d24 P 1
frobnicate d30
write d42 12 512*ac
save d0 0 29
save d1 0 51
save d2 0 45
save d3 0 42
save d4 0 33
settle d30
remove d40
remove d22
remove d12
load d2 2 32*00 1*0d 479*00
create d12 0 44 flakey d2 1 5 2
create d40 0 29 snapshot d10 d12 P 1
write d30 0 512*70 512*16 512*bc 512*86
remove d40
remove d22
remove d12
load d2 1 1*53 1*6e 1*41 1*70 1*01 3*00 1*01 3*00 1*01 13*00 1*02 485*00
create d12 0 44 flakey d2 1 5 2
create d40 0 29 snapshot d10 d12 P 1
save d4 22 6
write d30 11 512*e8 512*1c 512*09 512*11
remove d40
remove d22
remove d12
load d2 4 32*05 1*12 479*05
create d12 0 44 flakey d2 1 5 2
create d40 0 29 snapshot d10 d12 P 1
settle d30
save d0 0 29
save d1 0 51
save d2 0 45
save d3 0 42
save d4 0 33
remove d42
remove d24
remove d14
load d4 1 47*00 1*1b 464*00
create d24 0 33 dust d4 0 512
create d42 0 29 snapshot d10 d24 P 1
status d40
remove d42
remove d24
remove d14
load d4 0 512*00
create d24 0 33 dust d4 0 512
create d42 0 29 snapshot d10 d24 P 1
write d30 9 512*00 512*0f 512*ee 512*d7 512*ab 512*f3
message d20 0 addbadblock 13
write d42 13 512*c9 512*61 512*25 512*95
write d41 27 512*a8
write d45 56 512*44
save d0 0 29
save d1 0 51
save d2 0 45
save d3 0 42
save d4 0 33
write d42 20 512*f1 512*f3 512*53
finish d30
write d42 20 512*fa 512*2c 512*24
read d42 8 6
message d13 0 addbadblock 10
table d42
write d30 11 512*99
save d1 15 6
save d0 0 29
save d1 0 51
save d2 0 45
save d3 0 42
save d4 0 33
message d20 0 addbadblock 31
save d0 4 3
settle d30
save d1 44 1
status d41
merge d42
finish d41
write d42 15 512*fd 512*3a 512*bb 512*80 512*d1
save d2 17 2
write d41 15 512*78 512*a1 512*29
table d21
resume d41
settle d30
status d30
tick 1
resume d30
settle d30
status d30
tick 1
resume d30
finish d30
create d42 0 29 snapshot d10 d24 P 1
finish d42
write d41 9 512*04 512*39 512*a4 512*d7 512*18 512*d6
save d0 0 29
save d1 0 51
save d2 0 45
save d3 0 42
save d4 0 33
read d11 2 3
message d20 0 queryblock 33
settle d40
write d30 3 512*5c 512*4c
remove d41
remove d23
remove d13
load d3 3 37*d7 1*0a 474*d7
create d13 0 42 flakey d3 0 4 1 2 error_reads error_writes
create d41 0 29 snapshot d10 d13 P 1
remove d41
remove d23
remove d13
load d3 0 512*00
create d13 0 42 flakey d3 0 4 1 2 error_reads error_writes
create d41 0 29 snapshot d10 d13 P 1
remove d42
remove d24
remove d14
load d4 0 1*53 1*6e 1*41 1*70 1*01 3*00 1*01 3*00 1*01 499*00
create d24 0 33 dust d4 0 512
create d42 0 29 snapshot d10 d24 P 1
write d40 0 512*57 512*fc 512*9a 512*23 512*04 512*6c
save d0 0 29
save d1 0 51
save d2 0 45
save d3 0 42
save d4 0 33
create d12 0 44 flakey d2 1 5 2
write d42 6 512*95 512*37 512*86 512*73 512*e7
read d30 21 5
resume d30
finish d30
write d31 5 512*32 512*07 512*25 512*17 512*dd
finish d30
read d42 46 6
save d0 0 29
save d1 0 51
save d2 0 45
save d3 0 42
save d4 0 33
read d30 0 6
write d30 43 512*7b 512*b6 512*bc 512*c1
write d30 11 512*e3 512*fe 512*0c
read d30 8 1
write d30 0 512*c2 512*4b
table d42
finish d30
message d23 0 enable
save d0 0 29
save d1 0 51
save d2 0 45
save d3 0 42
save d4 0 33
write d40 0 512*5b 512*b7
write d41 1 512*7d 512*10 512*b3 512*14
remove d40
remove d22
remove d12
load d2 1 1*53 1*6e 1*41 1*70 1*01 3*00 1*01 3*00 1*01 30*00 1*27 468*00
create d12 0 44 flakey d2 1 5 2
create d40 0 29 snapshot d10 d12 P 1
disk d10 29
write d30 15 512*f3 512*f2 512*eb
table d19
finish d30
merge d41
read d30 0 29
settle d30
read d30 0 29
write d30 0 512*6d 512*fd 512*f3 512*06 512*0e
write d42 7 512*c9 512*11 512*2b 512*34
message d21 0 addbadblock 40
message d20 0 listbadblocks
write d40 13 512*c2 512*06
settle d30
status d30
tick 0
resume d30
finish d30
create d41 0 29 snapshot d10 d13 P 1
save d0 0 29
save d1 0 51
save d2 0 45
save d3 0 42
save d4 0 33
read d30 14 1
write d30 20 512*e5 512*f9 512*0c 512*fb
merge d41
read d30 0 29
write d30 8 512*a4 512*5d
write d40 10 512*c2 512*1d 512*b5 512*6a 512*b6
settle d30
status d30
tick 0
resume d30
finish d30
create d41 0 29 snapshot d10 d13 P 1
message d20 0 disable
merge d41
read d30 0 29
merge d40
message d24 0 enable
read d42 22 3
write d41 8 512*54 512*c1 512*c2
read d30 2 4
settle d30
status d30
tick 1
resume d30
settle d30
status d30
tick 2
resume d30
settle d30
status d30
tick 0
resume d30
finish d30
create d41 0 29 snapshot d10 d13 P 1
remove d42
create d42 0 29 snapshot d10 d24 P 1
remove d42
remove d24
remove d14
load d4 0 1*53 1*6e 1*41 1*70 1*01 3*00 1*01 3*00 1*01 499*00
create d24 0 33 dust d4 0 512
create d42 0 29 snapshot d10 d24 P 1
read d30 13 1
write d40 15 512*10 512*78
save d0 0 29
save d1 0 51
save d2 0 45
save d3 0 42
save d4 0 33
write d40 19 512*6b 512*f1 512*40 512*06 512*d7 512*f9
settle d30
write d42 1 512*6e
merge d40
read d30 0 29
settle d30
read d30 0 29
merge d41
message d24 0 enable
read d30 20 1
settle d30
tick 2
write d40 12 512*58 512*7a 512*bb 512*40 512*a7 512*9f
read d41 19 1
settle d30
status d30
tick 1
resume d30
settle d30
status d30
tick 2
resume d30
finish d30
create d40 0 29 snapshot d10 d12 P 1
write d30 14 512*15 512*98 512*d2
read d30 6 5
remove d40
remove d22
remove d12
load d2 3 13*98 1*10 498*98
create d12 0 44 flakey d2 1 5 2
create d40 0 29 snapshot d10 d12 P 1
remove d41
remove d23
remove d13
load d3 0 1*53 1*6e 1*41 1*70 1*01 3*00 1*01 3*00 1*01 9*00 1*11 489*00
create d13 0 42 flakey d3 0 4 1 2 error_reads error_writes
create d41 0 29 snapshot d10 d13 P 1
save d0 0 29
save d1 0 51
save d2 0 45
save d3 0 42
save d4 0 33
status d40
write d40 13 512*dd 512*2e 512*8a
remove d42
create d42 0 29 snapshot d10 d24 P 1
remove d42
remove d24
remove d14
load d4 0 1*53 1*6e 1*41 1*70 1*01 3*00 1*01 3*00 1*01 499*00
create d24 0 33 dust d4 0 512
create d42 0 29 snapshot d10 d24 P 1
read d42 11 1
message d24 0 addbadblock 44
read d6 5 5
save d2 24 2
write d41 12 512*0c 512*57 512*5e 512*52
save d0 0 29
save d1 0 51
save d2 0 45
save d3 0 42
save d4 0 33
stop d31
create d40 0 29 snapshot d10 d12 P 1
create d41 0 29 snapshot d10 d13 P 1
create d42 0 29 snapshot d10 d24 P 1
merge d42
merge d40
settle d30
status d30
tick 1
resume d30
finish d30
create d42 0 29 snapshot d10 d24 P 1
write d41 16 512*5b
write d41 13 512*1a 512*8b
create d9 0 24 snapshot d0 d2 P 3
stop d30
create d30 0 29 snapshot-origin d10
create d40 0 29 snapshot d10 d12 P 1
disk d33 27
tick 2
save d0 0 29
save d1 0 51
save d2 0 45
save d3 0 42
save d4 0 33
read d30 8 3
status d42
load d1 6 512*b7 512*69 512*fc 512*c4 512*fe 512*bc
remove d40
remove d22
remove d12
load d2 0 1024*00
create d12 0 44 flakey d2 1 5 2
create d40 0 29 snapshot d10 d12 P 1
write d30 25 512*19 512*11 512*0e 512*3b
message d20 0 addbadblock 15
write d30 6 512*4c 512*af 512*3f
table d10
save d0 0 29
save d1 0 51
save d2 0 45
save d3 0 42
save d4 0 33
status d30
read d41 48 5
read d30 10 6
message d20 0 clearbadblocks
save d3 9 1
write d30 5 512*78 512*04
message d24 0 enable
disk d3 43
save d0 0 29
save d1 0 51
save d2 0 45
save d3 0 42
save d4 0 33
write d40 16 512*cb
read d42 0 2
settle d40
write d42 0 512*54
save d3 16 5
remove d41
remove d23
remove d13
load d3 3 6*15 1*07 505*15
create d13 0 42 flakey d3 0 4 1 2 error_reads error_writes
create d41 0 29 snapshot d10 d13 P 1
message d20 0 enable
status d30
save d0 0 29
save d1 0 51
save d2 0 45
save d3 0 42
save d4 0 33
merge d41
read d30 0 29
write d30 15 512*7e
status d40
settle d30
status d30
tick 1
resume d30
finish d30
create d41 0 29 snapshot d10 d13 P 1
save d46 20 4
write d40 1 512*d8 512*1a 512*b1 512*a5 512*8b 512*2b
save d0 2 1
resume d41
write d30 27 512*ca
disk d1 41
read d30 26 1
save d0 0 29
save d1 0 51
save d2 0 45
save d3 0 42
save d4 0 33
message d20 0 listbadblocks
message d23 0 enable
remove d40
remove d22
remove d12
load d2 0 1024*00
create d12 0 44 flakey d2 1 5 2
create d40 0 29 snapshot d10 d12 P 1
load d4 28 512*bc 512*f4 512*3b 512*9e
write d40 14 512*8f 512*1e 512*50
read d30 26 1
save d4 5 1
remove d41
create d41 0 29 snapshot d10 d13 P 1
save d0 0 29
save d1 0 51
save d2 0 45
save d3 0 42
save d4 0 33
settle d30
merge d41
save d3 9 1
table d43
save d4 10 1
message d7 0 countbadblocks
save d4 6 1
message d23 0 countbadblocks
save d0 0 29
save d1 0 51
save d2 0 45
save d3 0 42
save d4 0 33
write d30 11 512*32 512*34
remove d41
remove d23
remove d13
load d3 0 512*00
create d13 0 42 flakey d3 0 4 1 2 error_reads error_writes
create d41 0 29 snapshot d10 d13 P 1
remove d42
remove d24
remove d14
load d4 0 512*00
create d24 0 33 dust d4 0 512
create d42 0 29 snapshot d10 d24 P 1
write d41 14 512*c0 512*73 512*e1
settle d41
read d30 17 1
resume d30
write d30 3 512*0d 512*ec 512*7e 512*bb
save d0 0 29
save d1 0 51
save d2 0 45
save d3 0 42
save d4 0 33
table d20
tick 2
remove d42
create d42 0 29 snapshot d10 d24 P 1
remove d42
remove d24
remove d14
load d4 0 1*53 1*6e 1*41 1*70 1*01 3*00 1*01 3*00 1*01 499*00
create d24 0 33 dust d4 0 512
create d42 0 29 snapshot d10 d24 P 1
tick 1
resume d42
read d30 15 4
tick 3
merge d40
write d41 20 512*be 512*74 512*d1
settle d30
status d30
tick 1
resume d30
finish d30
create d40 0 29 snapshot d10 d12 P 1
save d0 0 29
save d1 0 51
save d2 0 45
save d3 0 42
save d4 0 33
write d40 28 512*53
write d30 23 512*3a 512*da 512*80 512*5c 512*71
settle d40
stop d31
create d40 0 29 snapshot d10 d12 P 1
create d41 0 29 snapshot d10 d13 P 1
create d42 0 29 snapshot d10 d24 P 1
save d3 6 5
remove d12
write d41 13 512*90 512*5f 512*67 512*9d
load d2 9 512*81 512*3e
save d0 0 29
save d1 0 51
save d2 0 45
save d3 0 42
save d4 0 33
table d46
merge d42
read d30 0 29
status d30
write d30 15 512*cf
status d42
write d30 0 512*67 512*86 512*fb 512*f3 512*ca
settle d30
status d30
tick 1
resume d30
settle d30
status d30
tick 1
resume d30
finish d30
create d42 0 29 snapshot d10 d24 P 1
settle d30
merge d42
read d30 0 29
settle d30
read d30 0 29
save d0 1 2
tick 2
tick 1
write d30 17 512*1d 512*d6 512*17 512*76
write d30 6 512*28 512*7c 512*b8
settle d30
status d30
tick 2
resume d30
settle d30
status d30
tick 2
resume d30
finish d30
create d42 0 29 snapshot d10 d24 P 1
read d30 5 1
stop d30
create d30 0 29 snapshot-origin d10
create d40 0 29 snapshot d10 d12 P 1
create d41 0 29 snapshot d10 d13 P 1
create d42 0 29 snapshot d10 d24 P 1
status d41
merge d40
save d0 0 29
save d1 0 51
save d2 0 45
save d3 0 42
save d4 0 33
remove d42
tick 3
write d30 20 512*e3 512*d8 512*1b 512*0f 512*97 512*ee
write d30 25 512*de 512*17 512*49
status d30
write d30 14 512*6a
settle d30
merge d40
read d30 0 29
write d30 18 512*4a 512*ee 512*9e 512*8b 512*8e 512*1e
table d7
read d41 16 1
status d30
read d30 14 3
message d21 0 addbadblock 47
settle d30
status d30
tick 2
resume d30
settle d30
status d30
tick 1
resume d30
settle d30
status d30
tick 0
resume d30
finish d30
create d40 0 29 snapshot d10 d12 P 1
save d0 0 29
save d1 0 51
save d2 0 45
save d3 0 42
save d4 0 33
save d2 11 6
message d44 0 addbadblock 17
write d40 6 512*3f
write d42 3 512*3b 512*7d 512*11 512*eb
write d42 0 512*c8
write d30 16 512*08 512*8f 512*84
remove d40
create d40 0 29 snapshot d10 d12 P 1
remove d40
remove d22
remove d12
load d2 1 1*53 1*6e 1*41 1*70 1*01 3*00 1*01 3*00 1*01 22*00 1*26 476*00
create d12 0 44 flakey d2 1 5 2
create d40 0 29 snapshot d10 d12 P 1
read d31 6 3
save d0 0 29
save d1 0 51
save d2 0 45
save d3 0 42
save d4 0 33
merge d42
write d30 16 512*86
settle d30
status d30
tick 1
resume d30
finish d30
create d42 0 29 snapshot d10 d24 P 1
merge d41
write d41 14 512*f4 512*24 512*3e 512*26 512*bc 512*9e
remove d42
remove d24
remove d14
load d4 3 21*ca 1*0e 490*ca
create d24 0 33 dust d4 0 512
create d42 0 29 snapshot d10 d24 P 1
create d16 0 8 error
settle d4
write d30 17 512*a2 512*81 512*1b 512*9b
read d30 15 3
save d0 0 29
save d1 0 51
save d2 0 45
save d3 0 42
save d4 0 33
write d42 3 512*59 512*6c 512*ed 512*29 512*b3 512*46
write d30 7 512*ef 512*f2 512*02
save d2 35 6
message d22 0 enable
remove d42
create d42 0 29 snapshot d10 d24 P 1
create d9 0 24 snapshot-merge d0 d2 P 1
tick 2
remove d41
create d41 0 29 snapshot d10 d13 P 1
save d0 0 29
save d1 0 51
save d2 0 45
save d3 0 42
save d4 0 33
merge d41
write d30 0 100*aa
write d30 8 512*9e 512*0f 512*e5 512*3a 512*0e 512*f7
write d27 8 512*23 512*73 512*6e 512*5d 512*ed
write d30 20 512*fb 512*74 512*b3
disk d9 0
stop d30
create d30 0 29 snapshot-origin d10
create d40 0 29 snapshot d10 d12 P 1
create d41 0 29 snapshot d10 d13 P 1
create d42 0 29 snapshot d10 d24 P 1
read d30 0
save d0 0 29
save d1 0 51
save d2 0 45
save d3 0 42
save d4 0 33
merge d42
read d30 0 29
settle d30
read d30 0 29
settle d30
status d30
tick 1
resume d30
settle d30
status d30
tick 1
resume d30
finish d30
create d42 0 29 snapshot d10 d24 P 1
write d40 9 512*e2 512*42 512*a0 512*12
write d42 3 512*21 512*48 512*c9 512*bb
finish d30
read d40 23 5
remove d40
remove d22
remove d12
load d2 2 1*06 2*00 1*20 4*00 1*02 7*00 1*10 7*00 1*03 7*00 1*11 7*00 1*04 7*00 1*12 7*00 1*05 455*00
create d12 0 44 flakey d2 1 5 2
create d40 0 29 snapshot d10 d12 P 1
write d30 15 512*6e
write d30 10 512*ef 512*76
save d0 0 29
save d1 0 51
save d2 0 45
save d3 0 42
save d4 0 33
write d30 7 512*4b 512*93 512*d5 512*82 512*b4 512*54
write d41 6 512*ff
settle d40
