# Pseudo-random commands over layers that fail now and then, with small stores, most of which may overflow.
# Drawn, and what must be printed was said, by the plain slow machine of `bench/tests/desk_rows`.
disk d0 48
create d10 0 47 flakey d0 1 4 2
create d20 0 47 dust d10 0 2048
disk d1 29
create d21 0 29 dust d1 0 512
disk d2 8
disk d3 9
create d13 0 8 flakey d3 1 6 2
create d23 0 8 dust d13 0 1024
disk d4 18
create d14 0 16 flakey d4 2 6 2
create d24 0 16 dust d14 0 2048
create d30 0 47 snapshot-origin d20
write d30 0 512*00 512*01 512*02 512*03 512*04 512*05 512*06 512*07 512*08 512*09 512*0a 512*0b 512*0c 512*0d 512*0e 512*0f 512*10 512*11 512*12 512*13 512*14 512*15 512*16 512*17 512*18 512*19 512*1a 512*1b 512*1c 512*1d 512*1e 512*1f 512*20 512*21 512*22 512*23 512*24 512*25 512*26 512*27 512*28 512*29 512*2a 512*2b 512*2c 512*2d 512*2e
create d31 0 29 snapshot-origin d21
write d31 0 512*00 512*01 512*02 512*03 512*04 512*05 512*06 512*07 512*08 512*09 512*0a 512*0b 512*0c 512*0d 512*0e 512*0f 512*10 512*11 512*12 512*13 512*14 512*15 512*16 512*17 512*18 512*19 512*1a 512*1b 512*1c
create d40 0 29 snapshot d21 d2 P 2
create d41 0 47 snapshot d20 d23 PO 2
create d42 0 29 snapshot d21 d24 PO 2
merge d41
read d30 0 47
settle d30
read d30 0 47
read d40 7 3
settle d30
status d30
tick 1
resume d30
settle d30
status d30
tick 1
resume d30
settle d30
status d30
tick 1
resume d30
finish d30
create d41 0 47 snapshot d20 d23 PO 2
save d0 0 48
save d1 0 29
save d2 0 8
save d3 0 9
save d4 0 18
save d4 16 6
write d41 37 512*00 512*23
finish d41
write d41 11 512*ef 512*2f 512*3f
status d31
write d31 1 512*20
merge d42
read d31 0 29
settle d31
read d31 0 29
create d18 0 35 snapshot d47 d12 P 1
write d42 4 512*9a 512*60 512*1d 512*36 512*6a 512*8c
write d41 13 512*13 512*11 512*34 512*fc
write d42 1 512*47 512*08 512*bc
read d41 7 1
settle d31
status d31
tick 1
resume d31
finish d31
create d42 0 29 snapshot d21 d24 PO 2
merge d42
read d31 0 29
finish d31
merge d41
table d37
save d2 6 2
write d41 14 512*7a 512*aa 512*67 512*aa 512*5d
write d42 16 512*33 1024*a6
settle d30
status d30
tick 0
resume d30
finish d30
create d42 0 29 snapshot d21 d24 PO 2
save d0 0 48
save d1 0 29
save d2 0 8
save d3 0 9
save d4 0 18
tick 3
write d41 2 512*98
message d21 0 addbadblock 8
write d42 7 512*11 512*0e
status d40
status d40
tick 3
write d42 2 512*5d
save d0 0 48
save d1 0 29
save d2 0 8
save d3 0 9
save d4 0 18
table d9
status d39
load d2 15 512*62 512*99 512*1f 512*1e
write d41 15 512*80 512*32 512*82
merge d42
write d40 11 512*5c 512*5b 512*bd 512*37 512*c9
table d33
write d41 13 512*33
create d30 0 47 snapshot-origin d20
resume d40
write d41 20 512*46 512*be 512*59 512*33 512*28
message d24 0 addbadblock 10
settle d31
status d31
tick 0
resume d31
settle d31
status d31
tick 2
resume d31
finish d31
create d42 0 29 snapshot d21 d24 PO 2
status d42
merge d42
merge d40
save d0 0 48
save d1 0 29
save d2 0 8
save d3 0 9
save d4 0 18
merge d41
read d30 0 47
message d24 0 enable
table d49
finish d42
read d42 10 2
write d41 14 512*c0 512*46
write d40 3 512*47 512*92 512*5f 512*2c 512*69
settle d30
status d30
tick 0
resume d30
finish d30
create d41 0 47 snapshot d20 d23 PO 2
merge d41
read d30 0 47
load d3 15 512*a4 512*90 512*a3 512*1d 512*04
finish d40
read d30 7 6
merge d42
tick 3
settle d30
status d30
tick 0
resume d30
settle d30
status d30
tick 0
resume d30
finish d30
create d41 0 47 snapshot d20 d23 PO 2
remove d42
create d42 0 29 snapshot d21 d24 PO 2
write d42 14 512*49 512*6e 512*4a 512*a6
write d40 12 512*e4 512*14 512*db 512*d7 512*dd 512*f3
write d40 10 512*d3 512*f2 512*eb 512*71
merge d40
tick 2
save d0 0 48
save d1 0 29
save d2 0 8
save d3 0 9
save d4 0 18
create d40 0 29 snapshot d21 d2 P 2
merge d42
message d21 0 countbadblocks
status d42
write d41 8 512*20 512*73 512*33 512*0e 512*be 512*3b
write d41 10 512*81 512*1b 512*9d
settle d30
status d30
tick 2
resume d30
settle d30
status d30
tick 0
resume d30
settle d30
status d30
tick 1
resume d30
finish d30
create d42 0 29 snapshot d21 d24 PO 2
settle d41
write d30 0 100*aa
write d42 16 512*86 512*17 512*fb 512*1c 512*90 512*a8
write d40 7 512*a4 512*3f 512*c0 512*a6
write d42 5 512*b2
write d42 6 512*82 512*ed
save d0 0 48
save d1 0 29
save d2 0 8
save d3 0 9
save d4 0 18
load d0 4 512*83 512*e4 512*d3
write d40 1 512*bb 512*b5 512*16 512*99 512*e3 512*d5
write d42 28 512*91 512*64 512*f0 512*8a 512*f3
merge d40
settle d31
status d31
tick 2
resume d31
settle d31
status d31
tick 1
resume d31
finish d31
create d40 0 29 snapshot d21 d2 P 2
read d31 13 4
message d21 0 queryblock 23
remove d42
create d42 0 29 snapshot d21 d24 PO 2
message d24 0 addbadblock 19
save d0 0 48
save d1 0 29
save d2 0 8
save d3 0 9
save d4 0 18
merge d41
settle d42
read d28 5 6
status d30
settle d30
status d30
tick 2
resume d30
settle d30
status d30
tick 2
resume d30
finish d30
create d41 0 47 snapshot d20 d23 PO 2
read d41 13 4
save d0 46 5
message d20 0 addbadblock 2
load d0 39 512*9d 512*a5
status d40
status d40
remove d41
create d41 0 47 snapshot d20 d23 PO 2
save d0 0 48
save d1 0 29
save d2 0 8
save d3 0 9
save d4 0 18
read d31 12 3
save d0 19 2
write d41 31 512*34 512*18 512*a9 512*52 512*b4 512*4d
write d40 8 512*9e
write d41 29 512*f6
status d40
write d41 35 512*96 512*3c 512*af 512*d2
merge d42
create d19 0 18 flakey d18 0 1 0 1 error_writes
tick 1
write d40 4 512*8a 512*5a 512*91 512*ae 512*9e
status nosuch
settle d30
status d30
tick 1
resume d30
settle d30
status d30
tick 2
resume d30
finish d30
create d42 0 29 snapshot d21 d24 PO 2
save d0 0 48
save d1 0 29
save d2 0 8
save d3 0 9
save d4 0 18
merge d40
settle d31
status d31
tick 1
resume d31
settle d31
status d31
tick 0
resume d31
settle d31
status d31
tick 0
resume d31
finish d31
create d40 0 29 snapshot d21 d2 P 2
remove d30
remove d42
remove d24
remove d14
load d4 0 1536*00
create d14 0 16 flakey d4 2 6 2
create d24 0 16 dust d14 0 2048
create d42 0 29 snapshot d21 d24 PO 2
save d0 13 6
read d42 10 5
resume d42
write d42 2 512*2d 512*72
write d42 4 512*be
save d0 0 48
save d1 0 29
save d2 0 8
save d3 0 9
save d4 0 18
write d42 1 512*1b
write d41 7 512*bd 512*9d 512*27 512*41 512*7d
write d42 52 512*2b 512*58
finish d31
read d30 0
remove d40
remove d22
remove d12
load d2 0 512*00
create d40 0 29 snapshot d21 d2 P 2
remove d40
remove d22
remove d12
load d2 0 512*00
create d40 0 29 snapshot d21 d2 P 2
disk d0 20
save d0 0 48
save d1 0 29
save d2 0 8
save d3 0 9
save d4 0 18
read d42 12 5
remove d41
remove d23
remove d13
load d3 0 1024*00
create d13 0 8 flakey d3 1 6 2
create d23 0 8 dust d13 0 1024
create d41 0 47 snapshot d20 d23 PO 2
merge d42
read d31 0 29
settle d31
read d31 0 29
message d22 0 clearbadblocks
table d33
settle d31
status d31
tick 1
resume d31
finish d31
create d42 0 29 snapshot d21 d24 PO 2
message d22 0 removebadblock 8
remove d42
remove d24
remove d14
load d4 0 1536*00
create d14 0 16 flakey d4 2 6 2
create d24 0 16 dust d14 0 2048
create d42 0 29 snapshot d21 d24 PO 2
create d9 0 24 snapshot d0 d2 P 3
create d39 0 36 flakey d38 0 2 0 2 error_reads error_writes
write d42 17 512*8f 512*16
save d0 0 48
save d1 0 29
save d2 0 8
save d3 0 9
save d4 0 18
table d32
tick 1
tick 2
load d0 8 512*e5
write d42 5 512*02 512*21 512*a8 512*68 512*3c 512*d5
read d40 7 3
write d40 8 512*28
disk d4 40
save d0 0 48
save d1 0 29
save d2 0 8
save d3 0 9
save d4 0 18
tick 1
table d22
write d41 17 512*b6 512*69 512*8e 512*ac
table d42
disk d1 42
save d3 11 4
write d30 15 512*cf 512*ff
load d3 0 512*6d 512*51 512*72 512*51 512*d0
save d0 0 48
save d1 0 29
save d2 0 8
save d3 0 9
save d4 0 18
settle d41
write d42 15 512*a6 512*cf 512*76 512*2a 512*73
write d40 17 512*49 512*ae
read d30 41 2
write d40 4 512*bd
remove d41
remove d23
remove d13
load d3 0 1024*00
create d13 0 8 flakey d3 1 6 2
create d23 0 8 dust d13 0 1024
create d41 0 47 snapshot d20 d23 PO 2
remove d40
remove d22
remove d12
load d2 0 512*00
create d40 0 29 snapshot d21 d2 P 2
remove d42
create d42 0 29 snapshot d21 d24 PO 2
save d0 0 48
save d1 0 29
save d2 0 8
save d3 0 9
save d4 0 18
read d30 17 2
resume d31
stop d31
create d31 0 29 snapshot-origin d21
create d40 0 29 snapshot d21 d2 P 2
create d41 0 47 snapshot d20 d23 PO 2
create d42 0 29 snapshot d21 d24 PO 2
read d42 9 5
write d42 18 512*d7 512*b5 512*8d 512*c5
save d4 0 5
finish d40
write d40 16 512*43
save d0 0 48
save d1 0 29
save d2 0 8
save d3 0 9
save d4 0 18
write d41 39 512*95 512*98 512*23 512*3f 512*16 512*84
write d42 6 512*ef 512*b8 512*d8 512*f9 512*b0
write d40 26 512*f7
remove d30
write d41 35 512*cf 512*1b 512*bf
read d30 55 4
write d41 11 512*aa 512*ad 512*26 512*15 512*ee
status d42
save d0 0 48
save d1 0 29
save d2 0 8
save d3 0 9
save d4 0 18
status d30
write d40 37 512*d3 512*ea 512*5c 512*ba 512*d9 512*2c
message d23 0 addbadblock 10
merge d41
read d30 0 47
settle d30
read d30 0 47
message d22 0 enable
write d41 37 512*f2 512*fc
write d40 12 512*b5 512*5a 512*23 512*2b 512*0c
read d31 6 3
write d40 0 512*41 512*94 512*be 512*0b 512*d0
settle d30
status d30
tick 0
resume d30
settle d30
status d30
tick 0
resume d30
finish d30
create d41 0 47 snapshot d20 d23 PO 2
status d42
read d41 11 2
write d41 17 512*c1 512*fc 512*ee 512*00 512*bd
create d23 0 8 dust d13 0 1024
save d0 0 48
save d1 0 29
save d2 0 8
save d3 0 9
save d4 0 18
write d41 10 512*18 512*72 512*79 512*a6 512*06
write d30 0 100*aa
finish d42
write d42 1 512*7c 512*7a 512*bd
merge d41
save d0 18 3
read d30 30 1
merge d42
save d0 0 48
save d1 0 29
save d2 0 8
save d3 0 9
save d4 0 18
remove d42
remove d24
remove d14
load d4 0 1536*00
create d14 0 16 flakey d4 2 6 2
create d24 0 16 dust d14 0 2048
create d42 0 29 snapshot d21 d24 PO 2
settle d41
read d31 17 6
remove d40
remove d22
remove d12
load d2 0 512*00
create d40 0 29 snapshot d21 d2 P 2
read d33 12 6
remove d41
remove d23
remove d13
load d3 0 1024*00
create d13 0 8 flakey d3 1 6 2
create d23 0 8 dust d13 0 1024
create d41 0 47 snapshot d20 d23 PO 2
message d21 0 addbadblock 47
write d42 8 512*fe 512*74 512*c8 512*96 512*3e
save d0 0 48
save d1 0 29
save d2 0 8
save d3 0 9
save d4 0 18
write d40 18 512*e3 512*6c 512*e5 512*be 512*b3 512*70
tick 2
write d40 2 512*97 512*6c
create d16 0 5 dust d20 0 512
message d24 0 enable
write d42 52 512*e0 512*cb 512*1c 512*19 512*c6
merge d41
read d30 0 47
settle d30
read d30 0 47
read d32 12 6
settle d30
status d30
tick 0
resume d30
settle d30
status d30
tick 2
resume d30
finish d30
create d41 0 47 snapshot d20 d23 PO 2
status d30
save d0 0 48
save d1 0 29
save d2 0 8
save d3 0 9
save d4 0 18
write d40 5 512*d2 512*27 512*aa
read d41 31 1
read d40 13 4
write d40 18 512*ab
stop d30
create d30 0 47 snapshot-origin d20
create d40 0 29 snapshot d21 d2 P 2
create d41 0 47 snapshot d20 d23 PO 2
write d41 28 512*64 512*bb 512*16 512*c3 512*14 512*0c
table d31
remove d42
remove d24
remove d14
load d4 0 1536*00
create d14 0 16 flakey d4 2 6 2
create d24 0 16 dust d14 0 2048
create d42 0 29 snapshot d21 d24 PO 2
save d0 0 48
save d1 0 29
save d2 0 8
save d3 0 9
save d4 0 18
message d22 0 enable
read d40 13 1
write d41 8 512*05
save d0 7 3
settle d42
save d2 7 4
write d42 11 512*08 512*4f 512*45 512*eb 512*cd
write d40 14 512*2e
save d0 0 48
save d1 0 29
save d2 0 8
save d3 0 9
save d4 0 18
write d40 17 512*fc 512*e0 512*22 512*b6 512*dc
disk d2 45
read d30 5 5
status d30
settle d40
write d41 12 512*5a
settle d41
write d40 36 512*2b 512*2f 512*a4 512*f8
save d0 0 48
save d1 0 29
save d2 0 8
save d3 0 9
save d4 0 18
write d41 20 512*5f 512*71 512*e1 512*41
remove d40
remove d22
remove d12
load d2 0 512*00
create d40 0 29 snapshot d21 d2 P 2
create d23 0 8 dust d13 0 1024
merge d41
write d41 5 512*37 512*24 512*c0
write d42 3 512*24 512*f4 512*c1
table d39
settle d30
status d30
tick 1
resume d30
settle d30
status d30
tick 0
resume d30
finish d30
create d41 0 47 snapshot d20 d23 PO 2
save d0 0 5
write d40 12 512*9e 512*5e 512*5b 512*c4 512*5f
write d40 4 512*d8
status d41
save d0 0 48
save d1 0 29
save d2 0 8
save d3 0 9
save d4 0 18
save d18 5 6
remove d40
remove d22
remove d12
load d2 0 512*00
create d40 0 29 snapshot d21 d2 P 2
read d42 2 2
write d38 4 512*4f 512*2b 512*58 512*2a 512*ff
settle d31
merge d42
message d20 0 enable
read d40 11 4
save d0 0 48
save d1 0 29
save d2 0 8
save d3 0 9
save d4 0 18
message d20 0 addbadblock 45
table d41
write d40 11 512*6a 512*a0 512*c9 512*82
resume d30
settle d42
message d21 0 enable
message d21 0 queryblock 20
write d42 6 512*84 512*5a 512*47 512*95 512*8b
save d0 0 48
save d1 0 29
save d2 0 8
save d3 0 9
save d4 0 18
tick 1x
settle d30
write d41 13 512*31 512*bc 512*66
remove d40
remove d22
remove d12
load d2 0 512*00
create d40 0 29 snapshot d21 d2 P 2
write d41 10 512*69 512*0f 512*48 512*99 512*32 512*c6
settle d30
finish d31
write d42 7 512*62 512*7b 512*60 512*bf
save d0 0 48
save d1 0 29
save d2 0 8
save d3 0 9
save d4 0 18
merge d41
write d41 46 512*63
write d40 19 512*84 512*52 512*57 512*84
settle d42
message d24 0 addbadblock 29
settle d30
status d30
tick 2
resume d30
finish d30
create d41 0 47 snapshot d20 d23 PO 2
write d40 15 512*fb 512*09
message d20 0 disable
table d27
tick 1
read d41 2 3
write d40 7 512*cc 512*3e
write d40 13 512*9f 512*ef 512*60 512*a2 512*d6 512*7a
save d0 0 48
save d1 0 29
save d2 0 8
save d3 0 9
save d4 0 18
settle d31
write d40 10 512*f7 512*21 512*a1 512*f0 512*af
create d1 0 8 snapshot-origin d0
remove d42
remove d24
remove d14
load d4 0 1536*00
create d14 0 16 flakey d4 2 6 2
create d24 0 16 dust d14 0 2048
create d42 0 29 snapshot d21 d24 PO 2
merge d40
write d40 15 512*a9 512*34 512*a7 512*d8
load d2 0 512*d3 512*5a 512*6d
status d30
write d41 33 512*32 512*d6 512*cc
settle d30
status d30
tick 0
resume d30
finish d30
create d40 0 29 snapshot d21 d2 P 2
write d40 7 512*3f 512*38 512*41 512*3d
resume d30
merge d41
settle d30
status d30
tick 1
resume d30
settle d30
status d30
tick 0
resume d30
finish d30
create d41 0 47 snapshot d20 d23 PO 2
save d0 0 48
save d1 0 29
save d2 0 8
save d3 0 9
save d4 0 18
read d30 30 6
load d1 11 512*b5 512*63 512*7a 512*a9 512*3d
write d30 7 512*a2 512*12
write d42 0 512*8c
create d40 0 29 snapshot d21 d2 P 2
table d14
merge d40
table d33
save d0 0 48
save d1 0 29
save d2 0 8
save d3 0 9
save d4 0 18
write d40 9 512*ae
write d42 12 512*11 512*45
remove d42
remove d24
remove d14
load d4 0 1536*00
create d14 0 16 flakey d4 2 6 2
create d24 0 16 dust d14 0 2048
create d42 0 29 snapshot d21 d24 PO 2
load d4 5 512*c8 512*c1 512*52 512*e4
merge d42
read d31 0 29
write d40 6 512*02 512*ec 512*9a
write d41 6 512*74 512*de 512*26 512*f6 512*b9 512*ff
write d42 12 512*70
settle d42
settle d31
status d31
tick 0
resume d31
finish d31
create d42 0 29 snapshot d21 d24 PO 2
read d40 8 5
create d47 0 28 flakey d18 2 1 0 1 error_reads
remove d42
remove d24
remove d14
load d4 0 1536*00
create d14 0 16 flakey d4 2 6 2
create d24 0 16 dust d14 0 2048
create d42 0 29 snapshot d21 d24 PO 2
save d0 0 48
save d1 0 29
save d2 0 8
save d3 0 9
save d4 0 18
frobnicate d30
