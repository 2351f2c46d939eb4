# Pseudo-random commands over bare disks with small stores, most of which may overflow: snapshots written, full, merged, stops.
# Drawn, and what must be printed was said, by the plain slow machine of `bench/tests/desk_rows`.
disk d0 48
disk d1 36
disk d2 7
disk d3 18
disk d4 18
create d30 0 48 snapshot-origin d0
write d30 0 512*00 512*01 512*02 512*03 512*04 512*05 512*06 512*07 512*08 512*09 512*0a 512*0b 512*0c 512*0d 512*0e 512*0f 512*10 512*11 512*12 512*13 512*14 512*15 512*16 512*17 512*18 512*19 512*1a 512*1b 512*1c 512*1d 512*1e 512*1f 512*20 512*21 512*22 512*23 512*24 512*25 512*26 512*27 512*28 512*29 512*2a 512*2b 512*2c 512*2d 512*2e 512*2f
create d40 0 48 snapshot d0 d2 P 2
create d41 0 48 snapshot d0 d3 PO 2
create d42 0 48 snapshot d0 d4 PO 2
settle d42
save d0 0 48
save d1 0 36
save d2 0 7
save d3 0 18
save d4 0 18
read d30 40 4
remove d41
remove d23
remove d13
load d3 0 512*00
create d41 0 48 snapshot d0 d3 PO 2
message d20 0 enable
remove d40
remove d22
remove d12
load d2 0 512*00
create d40 0 48 snapshot d0 d2 P 2
save d3 10 6
tick 3
write d41 37 512*00 512*23
finish d41
save d0 0 48
save d1 0 36
save d2 0 7
save d3 0 18
save d4 0 18
read d30 9 6
write d40 19 512*1f
read d40 19 6
write d40 32 512*3d 512*7b 512*74 512*a5 512*1e 512*be
write d30 15 512*0f 512*ea 512*a8 512*7e 512*72 512*8d
settle d42
write d42 5 512*a4 512*48 512*cb 512*8d 512*13 512*11
write d42 1 512*47 512*08 512*bc
save d0 0 48
save d1 0 36
save d2 0 7
save d3 0 18
save d4 0 18
read d30 7 1
tick 3
write d40 16 512*11 512*36 512*1a 512*df
read d30 26 5
write d40 1 512*f5 512*28
save d3 4 1
status d40
read d41 3 3
save d0 0 48
save d1 0 36
save d2 0 7
save d3 0 18
save d4 0 18
create d30 0 48 snapshot-origin d0
settle d30
write d41 2 512*98
message d21 0 addbadblock 8
write d42 43 512*8e 512*11
write d42 15 512*fe 512*99 512*6f 512*ba 512*67
settle d30
write d42 39 512*2b 512*63 512*9c
save d0 0 48
save d1 0 36
save d2 0 7
save d3 0 18
save d4 0 18
settle d30
merge d40
write d41 31 512*d7 512*44
load d2 15 512*62 512*99 512*1f 512*1e
read d30 17 6
read d30 11 5
settle d30
status d30
tick 0
resume d30
settle d30
status d30
tick 2
resume d30
finish d30
create d40 0 48 snapshot d0 d2 P 2
merge d42
read d30 0 48
write d40 29 512*57 512*5c 512*5b 512*bd 512*37
settle d30
status d30
tick 1
resume d30
settle d30
status d30
tick 2
resume d30
settle d30
status d30
tick 1
resume d30
finish d30
create d42 0 48 snapshot d0 d4 PO 2
message d23 0 countbadblocks
create d42 0 48 snapshot d0 d4 PO 2
read d19 5 2
resume d41
write d30 8 512*33 512*28 512*a3
save d0 0 48
save d1 0 36
save d2 0 7
save d3 0 18
save d4 0 18
message d24 0 addbadblock 10
write d41 11 512*59 512*80 512*cc 512*95 512*99 512*54
write d40 29 512*db 512*4e 512*ec 512*f9 512*e1
write d41 13 512*b7 512*55
disk d1 29
write d42 8 512*cb
read d42 32 3
write d42 24 512*c3 512*47 512*92 512*5f
save d0 0 48
save d1 0 36
save d2 0 7
save d3 0 18
save d4 0 18
read d30 12 1
load d3 15 512*a4 512*90 512*a3 512*1d 512*04
finish d42
read d30 7 6
read d41 13 4
read d40 6 2
write d40 5 512*84 512*59 512*c3
stop d31
create d40 0 48 snapshot d0 d2 P 2
create d41 0 48 snapshot d0 d3 PO 2
create d42 0 48 snapshot d0 d4 PO 2
save d0 0 48
save d1 0 36
save d2 0 7
save d3 0 18
save d4 0 18
write d40 12 512*e4 512*14 512*db 512*d7 512*dd 512*f3
write d40 10 512*d3 512*f2 512*eb 512*71
remove d30
tick 2
create d40 0 48 snapshot d0 d2 P 2
merge d42
read d30 0 48
settle d30
read d30 0 48
write d42 31 512*12 512*49 512*cd 512*75
write d41 19 512*76 512*0f 512*3a 512*e9
settle d30
status d30
tick 2
resume d30
finish d30
create d42 0 48 snapshot d0 d4 PO 2
tick 1
finish d30
save d0 0 48
save d1 0 36
save d2 0 7
save d3 0 18
save d4 0 18
remove d42
remove d24
remove d14
load d4 0 512*00
create d42 0 48 snapshot d0 d4 PO 2
merge d42
read d30 0 48
settle d30
status d30
tick 1
resume d30
settle d30
status d30
tick 2
resume d30
finish d30
create d42 0 48 snapshot d0 d4 PO 2
settle d30
write d30 0 100*aa
merge d41
write d40 40 512*21
write d40 7 512*a4 512*3f 512*c0 512*a6
write d42 5 512*b2
save d0 0 48
save d1 0 36
save d2 0 7
save d3 0 18
save d4 0 18
message d24 0 enable
write d40 6 512*5e 512*9a 512*c4 512*83
tick 3
load d3 7 512*d5
write d42 28 512*5c 512*91 512*64 512*f0 512*8a
write d30 15 512*b1 512*d6 512*b3 512*06 512*a4 512*6e
remove d42
create d42 0 48 snapshot d0 d4 PO 2
remove d42
remove d24
remove d14
load d4 0 512*00
create d42 0 48 snapshot d0 d4 PO 2
tick 1
save d0 0 48
save d1 0 36
save d2 0 7
save d3 0 18
save d4 0 18
tick 3
write d40 17 512*ae 512*e4 512*aa 512*40 512*00 512*9b
merge d41
save d3 1 6
write d42 40 512*3d 512*da
settle d30
status d30
tick 1
resume d30
finish d30
create d41 0 48 snapshot d0 d3 PO 2
status d30
read d43 10 4
disk d9 0
remove d41
remove d23
remove d13
load d3 0 512*00
create d41 0 48 snapshot d0 d3 PO 2
resume d30
save d0 0 48
save d1 0 36
save d2 0 7
save d3 0 18
save d4 0 18
settle d42
load d0 18 512*c7
merge d42
read d30 0 48
resume d40
merge d40
write d41 31 512*34 512*18 512*a9 512*52 512*b4 512*4d
message d23 0 addbadblock 9
settle d30
status d30
tick 2
resume d30
finish d30
create d42 0 48 snapshot d0 d4 PO 2
read d8 7 6
message d22 0 addbadblock 36
write d30 9 512*3f 512*a3 512*96
message d24 0 addbadblock 30
write d41 28 512*71 512*4a
save d0 0 48
save d1 0 36
save d2 0 7
save d3 0 18
save d4 0 18
write d40 16 512*e5 512*ec 512*a2 512*18 512*c8
tick 3
disk d43 26
stop d30
create d30 0 48 snapshot-origin d0
write d30 1 512*1b 512*34 512*29
write d40 13 512*0d 512*38
read d30 10 5
resume d42
save d0 0 48
save d1 0 36
save d2 0 7
save d3 0 18
save d4 0 18
save d0 6 6
write d42 0 512*1e 512*14
write d41 0 512*b1 512*18
remove d42
create d42 0 48 snapshot d0 d4 PO 2
remove d42
remove d24
remove d14
load d4 0 512*00
create d42 0 48 snapshot d0 d4 PO 2
write d41 7 512*bd 512*9d 512*27 512*41 512*7d
write d42 52 512*2b 512*58
save d0 35 5
table d13
save d0 0 48
save d1 0 36
save d2 0 7
save d3 0 18
save d4 0 18
read d30 7 6
table d48
merge d41
merge d42
read d30 0 48
settle d30
read d30 0 48
load d2 9 512*bb
message d22 0 addbadblock 0
settle d30
status d30
tick 0
resume d30
finish d30
create d42 0 48 snapshot d0 d4 PO 2
write d40 49 512*c4 512*3c 512*3b
message d20 0 disable
write d41 34 512*74 512*ec 512*3a
remove d42
remove d24
remove d14
load d4 0 512*00
create d42 0 48 snapshot d0 d4 PO 2
save d0 0 48
save d1 0 36
save d2 0 7
save d3 0 18
save d4 0 18
write d42 35 512*e5 512*8f
stop d31
create d40 0 48 snapshot d0 d2 P 2
create d41 0 48 snapshot d0 d3 PO 2
create d42 0 48 snapshot d0 d4 PO 2
save d0 33 4
disk d1 28
write d40 12 512*30 512*cb 512*29 512*9e 512*7e 512*2b
status d40
write d30 14 512*07 512*ec 512*ca 512*87 512*51 512*d4
status d42
save d0 0 48
save d1 0 36
save d2 0 7
save d3 0 18
save d4 0 18
write d41 39 512*b8 512*c4 512*d1
write d41 23 512*12
read d30 23 1
read d22 4 2
save d4 14 2
write d41 12 512*cc
remove d41
create d41 0 48 snapshot d0 d3 PO 2
save d2 4 1
save d0 0 48
save d1 0 36
save d2 0 7
save d3 0 18
save d4 0 18
write d41 0 512*98 512*9c 512*70 512*f3
write d42 12 512*cd 512*c2 512*d2 512*3b
write d42 33 512*6d
write d42 15 512*a6 512*cf 512*76 512*2a 512*73
finish d30
read d40 17 2
read d30 41 2
write d30 26 512*46 512*04 512*bd 512*28 512*5a
save d0 0 48
save d1 0 36
save d2 0 7
save d3 0 18
save d4 0 18
status d30
merge d41
settle d30
status d30
tick 2
resume d30
settle d30
status d30
tick 2
resume d30
finish d30
create d41 0 48 snapshot d0 d3 PO 2
read d30 17 2
read d30 18 4
write d42 9 512*ad 512*7f 512*a4 512*0c 512*b3
write d41 17 512*c5 512*dd 512*d2 512*09 512*56 512*eb
finish d30
write d41 0 512*04 512*10 512*b2 512*2b 512*7b
save d0 0 48
save d1 0 36
save d2 0 7
save d3 0 18
save d4 0 18
message d23 0 disable
settle d30
message d22 0 addbadblock 36
remove d40
create d40 0 48 snapshot d0 d2 P 2
write d40 3 512*a3 512*ab 512*eb 512*69 512*f2 512*da
write d40 17 512*13 512*80 512*ee 512*98
read d30 20 3
message d20 0 addbadblock 41
save d0 0 48
save d1 0 36
save d2 0 7
save d3 0 18
save d4 0 18
write d41 10 512*3c 512*af 512*2c 512*aa
table d9
settle d30
merge d41
settle d30
status d41
write d42 7 512*ca
table d28
tick 3
settle d30
status d30
tick 1
resume d30
finish d30
create d41 0 48 snapshot d0 d3 PO 2
finish d40
write d41 22 512*4e
write d42 43 512*0c 512*81 512*29 512*4c
remove d41
create d41 0 48 snapshot d0 d3 PO 2
remove d41
create d41 0 48 snapshot d0 d3 PO 2
save d0 0 48
save d1 0 36
save d2 0 7
save d3 0 18
save d4 0 18
write d40 0 512*41 512*94 512*be 512*0b 512*d0
tick 3
settle d41
write d42 6 512*c6 512*ca 512*fc
load d3 1 512*73 512*e0 512*db 512*af 512*a1
write d42 24 512*72 512*79 512*a6
tick 3
finish d40
save d0 0 48
save d1 0 36
save d2 0 7
save d3 0 18
save d4 0 18
write d42 1 512*7c 512*7a 512*bd
merge d41
merge d42
save d3 0 3
message d22 0 disable
remove d42
remove d24
remove d14
load d4 0 512*00
create d42 0 48 snapshot d0 d4 PO 2
settle d41
write d40 2 512*65 512*87 512*c1
save d0 0 48
save d1 0 36
save d2 0 7
save d3 0 18
save d4 0 18
read d42 34 5
remove d41
remove d23
remove d13
load d3 0 512*00
create d41 0 48 snapshot d0 d3 PO 2
write d40 16 512*1a 512*22 512*58 512*02 512*9b
write d40 4 512*49 512*96 512*ac
status d42
remove d40
create d40 0 48 snapshot d0 d2 P 2
remove d40
remove d22
remove d12
load d2 0 512*00
create d40 0 48 snapshot d0 d2 P 2
write d40 5 512*1e
resume d42
save d0 0 48
save d1 0 36
save d2 0 7
save d3 0 18
save d4 0 18
write d30 1 512*e3 512*ce 512*bc 512*2d 512*14 512*d5
resume d30
resume d30
write d42 52 512*e0 512*cb 512*1c 512*19 512*c6
merge d41
read d30 0 48
settle d30
read d30 0 48
read d32 12 6
settle d30
status d30
tick 0
resume d30
settle d30
status d30
tick 2
resume d30
finish d30
create d41 0 48 snapshot d0 d3 PO 2
status d30
write d40 5 512*d2 512*27 512*aa
read d41 31 1
save d0 0 48
save d1 0 36
save d2 0 7
save d3 0 18
save d4 0 18
load d3 6 512*bd 512*27
table d8
write d41 37 512*97 512*b2 512*f1 512*41 512*8b 512*11
merge d40
write d41 12 512*20 512*7d
message d20 0 disable
message d24 0 countbadblocks
settle d30
status d30
tick 1
resume d30
finish d30
create d40 0 48 snapshot d0 d2 P 2
merge d41
read d30 0 48
settle d30
read d30 0 48
write d41 8 512*05
read d30 11 4
settle d30
status d30
tick 2
resume d30
settle d30
status d30
tick 2
resume d30
finish d30
create d41 0 48 snapshot d0 d3 PO 2
merge d41
read d30 0 48
read d30 34 3
read d42 18 2
write d40 22 512*e1 512*7b 512*ba 512*98
message d23 0 addbadblock 36
write d40 14 512*2e
finish d40
merge d41
settle d30
status d30
tick 2
resume d30
finish d30
create d41 0 48 snapshot d0 d3 PO 2
write d42 1 512*ba 512*84 512*a4 512*c5 512*68
finish d40
save d0 0 48
save d1 0 36
save d2 0 7
save d3 0 18
save d4 0 18
message d20 0 countbadblocks
settle d30
read d41 12 1
read d41 6 1
remove d41
remove d23
remove d13
load d3 0 512*00
create d41 0 48 snapshot d0 d3 PO 2
read d40 8 1
settle d30
settle d30
save d0 0 48
save d1 0 36
save d2 0 7
save d3 0 18
save d4 0 18
tick 3
create d30 0 48 snapshot-origin d0
merge d41
read d30 0 48
write d41 5 512*37 512*24 512*c0
write d42 3 512*24 512*f4 512*c1
settle d30
status d30
tick 2
resume d30
finish d30
create d41 0 48 snapshot d0 d3 PO 2
message d21 0 addbadblock 49
read d40 2 5
write d40 38 512*9e
write d30 2 512*dd 512*69 512*a6 512*32 512*84
write d42 45 512*b3 512*d5 512*5c
save d0 0 48
save d1 0 36
save d2 0 7
save d3 0 18
save d4 0 18
write d42 29 512*53 512*10 512*47 512*82 512*7e
write d40 32 512*14 512*54 512*04
finish d30
remove d42
remove d24
remove d14
load d4 0 512*00
create d42 0 48 snapshot d0 d4 PO 2
save d48 9 5
write d41 42 512*fd 512*57 512*c5 512*3e 512*45
message d22 0 clearbadblocks
message d23 0 removebadblock 10
save d0 0 48
save d1 0 36
save d2 0 7
save d3 0 18
save d4 0 18
read d30 0 6
write d41 9 512*82 512*cb 512*13
write d41 30 512*0f 512*ea 512*6a 512*92 512*67 512*88
save d2 7 4
write d30 4 512*99 512*c8 512*16
write d42 42 512*3d 512*84 512*5a 512*47 512*95
write d40 2 512*2a 512*91 512*48
message d21 0 addbadblock 34
save d0 0 48
save d1 0 36
save d2 0 7
save d3 0 18
save d4 0 18
write d40 46 512*0a 512*9c
message d21 0 disable
finish d30
settle d30
read d30 26 2
message d22 0 enable
write d41 4 512*f8 512*9c 1024*85
write d40 3 512*36 512*e5 512*93 512*84 512*52
save d0 0 48
save d1 0 36
save d2 0 7
save d3 0 18
save d4 0 18
write d40 2 512*aa 512*86 512*ac
