# Pseudo-random commands over layers that fail now and then, with small stores, most of which may overflow.
# Drawn, and what must be printed was said, by the plain slow machine of `bench/tests/desk_rows`.
disk d0 38
create d20 0 38 dust d0 0 512
disk d1 26
create d11 0 25 flakey d1 1 6 1 1 error_writes
create d21 0 25 dust d11 0 2048
disk d2 17
create d12 0 17 flakey d2 0 3 1 1 error_writes
create d22 0 17 dust d12 0 1024
disk d3 12
disk d4 15
create d24 0 15 dust d4 0 512
create d30 0 38 snapshot-origin d20
write d30 0 512*00 512*01 512*02 512*03 512*04 512*05 512*06 512*07 512*08 512*09 512*0a 512*0b 512*0c 512*0d 512*0e 512*0f 512*10 512*11 512*12 512*13 512*14 512*15 512*16 512*17 512*18 512*19 512*1a 512*1b 512*1c 512*1d 512*1e 512*1f 512*20 512*21 512*22 512*23 512*24 512*25
create d40 0 38 snapshot d20 d22 PO 2
create d41 0 38 snapshot d20 d3 P 2
create d42 0 38 snapshot d20 d24 PO 2
read d42 8 5
save d0 0 38
save d1 0 26
save d2 0 17
save d3 0 12
save d4 0 15
load d2 3 512*05 512*52 512*08 512*2a 512*b7
remove d42
remove d24
remove d14
load d4 0 512*00
create d24 0 15 dust d4 0 512
create d42 0 38 snapshot d20 d24 PO 2
read d40 5 6
remove d41
create d41 0 38 snapshot d20 d3 P 2
remove d41
remove d23
remove d13
load d3 0 512*00
create d41 0 38 snapshot d20 d3 P 2
write d41 1 512*92 512*90 512*2b 512*92
settle d30
settle d30
write d42 10 512*dd 512*28 512*ac 512*1a
save d0 0 38
save d1 0 26
save d2 0 17
save d3 0 12
save d4 0 15
tick 1
status d30
load d41 18 512*0d 512*40 512*e7 512*02
tick 3
save d4 16 3
tick 2
remove d42
remove d24
remove d14
load d4 0 512*00
create d24 0 15 dust d4 0 512
create d42 0 38 snapshot d20 d24 PO 2
merge d40
save d0 0 38
save d1 0 26
save d2 0 17
save d3 0 12
save d4 0 15
merge d42
read d42 4 5
remove d22
message d21 0 addbadblock 39
write d40 3 512*51 512*b8 512*05 512*17 512*b2 512*83
write d42 12 512*dc 512*86 512*2f
settle d30
status d30
tick 2
resume d30
settle d30
status d30
tick 0
resume d30
settle d30
status d30
tick 0
resume d30
finish d30
create d42 0 38 snapshot d20 d24 PO 2
resume d30
write d41 18 512*5f 512*c2
write d40 7 512*d0 512*db 512*b1 512*7d 512*86 512*d0
write d40 1 512*74 512*f5 512*22 512*3a
create d9 0 24 snapshot-merge d0 d2 P 1
write d42 0 512*ea 512*a8
write d41 8 512*c0
save d0 0 38
save d1 0 26
save d2 0 17
save d3 0 12
save d4 0 15
write d41 16 512*9e 512*0a 512*a9
write d42 6 512*d9
message d20 1 enable
message d24 0 enable
message d22 0 removebadblock 15
finish d30
write d41 55 512*10 512*a9
write d30 14 512*c4 512*4b 512*04 512*f4
save d0 0 38
save d1 0 26
save d2 0 17
save d3 0 12
save d4 0 15
save d1 37 2
write d41 61 512*33 512*ba 512*9d 512*97 512*a6
table d7
read d42 1 6
write d42 17 512*aa 512*1c 512*7f 512*f4 512*6e 512*b5
write d42 28 512*d9 512*ec 512*0b 512*7a 512*aa
message d23 0 enable
remove d42
create d42 0 38 snapshot d20 d24 PO 2
remove d42
remove d24
remove d14
load d4 0 512*00
create d24 0 15 dust d4 0 512
create d42 0 38 snapshot d20 d24 PO 2
save d0 0 38
save d1 0 26
save d2 0 17
save d3 0 12
save d4 0 15
create d24 0 15 dust d4 0 512
save d3 9 3
remove d42
create d42 0 38 snapshot d20 d24 PO 2
remove d42
remove d24
remove d14
load d4 0 512*00
create d24 0 15 dust d4 0 512
create d42 0 38 snapshot d20 d24 PO 2
save d4 15 4
finish d42
save d4 3 1
stop d30
create d30 0 38 snapshot-origin d20
create d40 0 38 snapshot d20 d22 PO 2
create d41 0 38 snapshot d20 d3 P 2
create d42 0 38 snapshot d20 d24 PO 2
merge d40
save d0 0 38
save d1 0 26
save d2 0 17
save d3 0 12
save d4 0 15
write d41 11 512*e4 512*c0 512*7d 512*3d 512*dd 512*1e
message d23 0 addbadblock 29
message d24 0 addbadblock 36
write d40 15 512*c6 512*86 512*6c 512*8f
resume d30
message d20 1 enable
status d41
table d30
save d0 0 38
save d1 0 26
save d2 0 17
save d3 0 12
save d4 0 15
write d41 1 512*3c 512*7a 512*df 512*7c 512*81 512*66
write d40 8 512*a6
status d40
remove d40
create d40 0 38 snapshot d20 d22 PO 2
remove d40
remove d22
remove d12
load d2 0 512*00
create d12 0 17 flakey d2 0 3 1 1 error_writes
create d22 0 17 dust d12 0 1024
create d40 0 38 snapshot d20 d22 PO 2
write d42 1 512*10 512*f3
message d20 0 addbadblock 35
read d40 33 2
message d22 0 countbadblocks
save d0 0 38
save d1 0 26
save d2 0 17
save d3 0 12
save d4 0 15
write d42 19 512*9b 512*67 512*eb 512*91 512*fb 512*bd
write d42 3 512*21 512*4f
message d20 0 addbadblock 48
read d42 6 5
remove d40
remove d22
remove d12
load d2 0 512*00
create d12 0 17 flakey d2 0 3 1 1 error_writes
create d22 0 17 dust d12 0 1024
create d40 0 38 snapshot d20 d22 PO 2
merge d40
read d30 0 38
settle d30
status d30
tick 2
resume d30
settle d30
status d30
tick 1
resume d30
finish d30
create d40 0 38 snapshot d20 d22 PO 2
write d41 5 512*3c 512*fd 512*28 512*7a 512*6a 512*cf
read d30 9 4
save d0 0 38
save d1 0 26
save d2 0 17
save d3 0 12
save d4 0 15
settle d30
write d41 7 512*95 512*a8 512*1a
remove d41
create d41 0 38 snapshot d20 d3 P 2
remove d41
create d41 0 38 snapshot d20 d3 P 2
status d40
write d40 10 512*da 512*24 512*a7 512*eb 512*b6 512*1b
write d41 11 512*7b 512*3e 512*ad 512*fe
write d42 14 512*d5 512*6e
merge d41
settle d42
settle d30
status d30
tick 1
resume d30
settle d30
status d30
tick 0
resume d30
settle d30
status d30
tick 1
resume d30
finish d30
create d41 0 38 snapshot d20 d3 P 2
save d0 0 38
save d1 0 26
save d2 0 17
save d3 0 12
save d4 0 15
message d23 0 removebadblock 26
write d41 9 512*f3 512*e0 512*cf 512*0c 512*68
finish d30
remove d42
write d40 27 512*0b 512*9b 512*3e 512*12 512*8c 512*ea
write d42 61 512*97 512*06 512*e5 512*48 512*2e
write d42 13 512*dc 512*10
remove d42
create d42 0 38 snapshot d20 d24 PO 2
save d0 0 38
save d1 0 26
save d2 0 17
save d3 0 12
save d4 0 15
merge d41
read d30 25 1
read d41 12 5
finish d41
message d20 0 enable
write d40 12 512*0c 512*83 512*ed 512*1c 512*4c 512*a8
write d40 1 512*08
settle d30
status d30
tick 1
resume d30
settle d30
status d30
tick 1
resume d30
settle d30
status d30
tick 0
resume d30
finish d30
create d41 0 38 snapshot d20 d3 P 2
message d21 0 addbadblock 7
tick 2
save d2 14 3
remove d41
remove d23
remove d13
load d3 0 512*00
create d41 0 38 snapshot d20 d3 P 2
write d41 7 512*84 512*9c 512*e7 1024*f5
read d40 15 2
write d40 33 512*55 512*92 512*67 512*79 512*8a
save d0 0 38
save d1 0 26
save d2 0 17
save d3 0 12
save d4 0 15
write d40 1 512*90 512*b4 512*97
remove d21
write d41 16 512*03 512*65 512*3e 512*6d 512*38
tick 1
remove d41
create d41 0 38 snapshot d20 d3 P 2
remove d41
remove d23
remove d13
load d3 0 512*00
create d41 0 38 snapshot d20 d3 P 2
disk d0 47
remove d41
remove d23
remove d13
load d3 0 512*00
create d41 0 38 snapshot d20 d3 P 2
tick 3
save d0 0 38
save d1 0 26
save d2 0 17
save d3 0 12
save d4 0 15
finish d40
write d42 14 512*c5 512*1e 512*8e 512*be 512*87
write d42 17 512*c4
read d30 0
tick 3
create d9 0 8 flakey d0 0 0 0
remove d40
create d40 0 38 snapshot d20 d22 PO 2
remove d40
remove d22
remove d12
load d2 0 512*00
create d12 0 17 flakey d2 0 3 1 1 error_writes
create d22 0 17 dust d12 0 1024
create d40 0 38 snapshot d20 d22 PO 2
status d40
save d0 0 38
save d1 0 26
save d2 0 17
save d3 0 12
save d4 0 15
disk d4 29
settle d41
settle d40
remove d40
create d40 0 38 snapshot d20 d22 PO 2
remove d40
remove d22
remove d12
load d2 0 512*00
create d12 0 17 flakey d2 0 3 1 1 error_writes
create d22 0 17 dust d12 0 1024
create d40 0 38 snapshot d20 d22 PO 2
read nosuch 0 0
stop d30
create d30 0 38 snapshot-origin d20
create d42 0 38 snapshot d20 d24 PO 2
write d40 6 512*82 512*e9 512*91 512*e0 512*c2
write d40 15 512*dc
save d0 0 38
save d1 0 26
save d2 0 17
save d3 0 12
save d4 0 15
remove d41
remove d23
remove d13
load d3 0 512*00
create d41 0 38 snapshot d20 d3 P 2
remove d42
create d42 0 38 snapshot d20 d24 PO 2
message d24 0 queryblock 19
write d42 1 512*98 512*cc 512*11 512*3b
settle d34
write d42 14 512*d2 512*46 512*58 512*2c
read d42 6 3
write d41 11 512*5b 512*c4
save d0 0 38
save d1 0 26
save d2 0 17
save d3 0 12
save d4 0 15
message d21 0 enable
write d42 15 512*ff 512*b0 512*2e 512*de 512*e9 512*52
remove d40
create d40 0 38 snapshot d20 d22 PO 2
read d8 8 6
merge d40
read d30 0 38
settle d30
read d30 0 38
write d41 4 512*a2 512*c0 512*4e 512*85 512*de 512*b1
status d30
settle d41
write d40 9 512*bc 512*af 512*d7 512*5b 512*df 512*a5
table d44
settle d30
status d30
tick 2
resume d30
finish d30
create d40 0 38 snapshot d20 d22 PO 2
write d42 7 512*bb
remove d41
remove d23
remove d13
load d3 0 512*00
create d41 0 38 snapshot d20 d3 P 2
tick 3
save d0 0 38
save d1 0 26
save d2 0 17
save d3 0 12
save d4 0 15
table d0
read d40 0 1
merge d40
read d30 0 38
resume d30
write d41 11 512*4e 512*d0 512*e9
disk d2 32
write d42 23 512*95 512*02
read d41 9 6
save d2 5 1
settle d30
status d30
tick 2
resume d30
settle d30
status d30
tick 1
resume d30
finish d30
create d40 0 38 snapshot d20 d22 PO 2
read d40 18 2
status d30
write d40 0 512*d7 512*42
remove d42
create d42 0 38 snapshot d20 d24 PO 2
read d42 35 3
save d0 0 38
save d1 0 26
save d2 0 17
save d3 0 12
save d4 0 15
tick 3
save d1 9 4
status d30
remove d40
remove d22
remove d12
load d2 0 512*00
create d12 0 17 flakey d2 0 3 1 1 error_writes
create d22 0 17 dust d12 0 1024
create d40 0 38 snapshot d20 d22 PO 2
status d40
write d42 16 512*37 512*d0 512*52 512*b5 512*c8
write d42 2 512*4c 512*7a 512*4f
read d42 21 6
save d0 0 38
save d1 0 26
save d2 0 17
save d3 0 12
save d4 0 15
table d14
write d30 0 100*aa
remove d40
remove d22
remove d12
load d2 0 512*00
create d12 0 17 flakey d2 0 3 1 1 error_writes
create d22 0 17 dust d12 0 1024
create d40 0 38 snapshot d20 d22 PO 2
tick 3
tick 3
merge d41
stop d30
create d30 0 38 snapshot-origin d20
create d40 0 38 snapshot d20 d22 PO 2
create d41 0 38 snapshot d20 d3 P 2
message d24 0 countbadblocks
save d0 0 38
save d1 0 26
save d2 0 17
save d3 0 12
save d4 0 15
write d40 29 512*97 512*b8 512*76
message d22 0 countbadblocks
remove d42
remove d24
remove d14
load d4 0 512*00
create d24 0 15 dust d4 0 512
create d42 0 38 snapshot d20 d24 PO 2
remove d41
remove d23
remove d13
load d3 0 512*00
create d41 0 38 snapshot d20 d3 P 2
message d20 1 enable
merge d41
read d30 0 38
settle d30
read d30 0 38
write d42 5 512*4b 512*e7 512*fa
write d40 10 512*2d 512*e6 512*3b 512*df 512*08 512*11
remove d20
settle d30
status d30
tick 0
resume d30
settle d30
status d30
tick 2
resume d30
settle d30
status d30
tick 1
resume d30
finish d30
create d41 0 38 snapshot d20 d3 P 2
write d41 5 512*a1
save d2 61 2
save d0 0 38
save d1 0 26
save d2 0 17
save d3 0 12
save d4 0 15
write d41 24 512*67 512*c1 512*b4
resume d30
write d41 1 512*a2 512*8d 512*0e 512*b9 512*6a
create d32 0 8 flakey d16 1 1 1
message d24 0 enable
remove d41
remove d23
remove d13
load d3 0 512*00
create d41 0 38 snapshot d20 d3 P 2
status d42
remove d41
create d41 0 38 snapshot d20 d3 P 2
save d0 0 38
save d1 0 26
save d2 0 17
save d3 0 12
save d4 0 15
read d30 57 2
write d42 6 512*93 512*61 512*5a 512*d9
write d40 30 512*42 512*11 512*1f
tick 2
read d30 8 1
resume d40
write d41 15 512*7a 512*04 512*0e 512*a4 512*30 512*cf
message d22 0 addbadblock 9
save d0 0 38
save d1 0 26
save d2 0 17
save d3 0 12
save d4 0 15
read d30 48 6
settle d30
write d42 7 512*b7 512*4f 512*df
write d40 6 512*a0 512*93 512*65 512*08 512*56
write d40 4 512*f2 512*8b 512*74 512*d5
read d30 6 4
settle d30
save d4 4 3
save d0 0 38
save d1 0 26
save d2 0 17
save d3 0 12
save d4 0 15
finish d30
write d41 3 512*a7
read d30 4 5
write d41 3 512*e5 512*c1 512*ea
remove d40
remove d22
remove d12
load d2 0 512*00
create d12 0 17 flakey d2 0 3 1 1 error_writes
create d22 0 17 dust d12 0 1024
create d40 0 38 snapshot d20 d22 PO 2
remove d40
create d40 0 38 snapshot d20 d22 PO 2
stop d31
create d40 0 38 snapshot d20 d22 PO 2
create d41 0 38 snapshot d20 d3 P 2
create d42 0 38 snapshot d20 d24 PO 2
write d42 6 512*bd 512*ff 512*f9 512*87
save d0 0 38
save d1 0 26
save d2 0 17
save d3 0 12
save d4 0 15
load d4 11 512*f4 512*5b 512*b6 512*13
remove d41
create d41 0 38 snapshot d20 d3 P 2
remove d41
remove d23
remove d13
load d3 0 512*00
create d41 0 38 snapshot d20 d3 P 2
save d1 13 4
table d10
write d41 2 512*9a 512*91
message d20 1 enable
write d40 28 512*65 512*5c 512*87 512*ba 512*28 512*5d
status d40
save d0 0 38
save d1 0 26
save d2 0 17
save d3 0 12
save d4 0 15
write d41 9 512*4f 512*e0 512*72
tick 1
settle d42
remove d22
remove d41
create d41 0 38 snapshot d20 d3 P 2
remove d41
create d41 0 38 snapshot d20 d3 P 2
settle d1
merge d41
save d1 18 1
save d0 0 38
save d1 0 26
save d2 0 17
save d3 0 12
save d4 0 15
stop d31
create d42 0 38 snapshot d20 d24 PO 2
read d42 14 5
write d42 1 512*5a 512*1e 512*cf 512*81 512*bd 512*96
read d40 32 6
write d41 0 512*28 512*1e 512*06 512*62 512*8c 512*92
write d42 3 512*21 512*89 512*ec
message d20 0 addbadblock 18
resume d30
save d0 0 38
save d1 0 26
save d2 0 17
save d3 0 12
save d4 0 15
finish d40
remove d42
remove d24
remove d14
load d4 0 512*00
create d24 0 15 dust d4 0 512
create d42 0 38 snapshot d20 d24 PO 2
settle d42
write d42 4 512*78 512*53
merge d42
read d48 11 5
write d40 1 512*62 512*35 512*c8 512*8d 512*33
table d42
read d30 11 1
remove d12
settle d30
write d41 29 512*05 512*09 512*d3
settle d30
status d30
tick 2
resume d30
finish d30
create d42 0 38 snapshot d20 d24 PO 2
read d30 16 2
status d42
read d30 18 5
save d0 0 38
save d1 0 26
save d2 0 17
save d3 0 12
save d4 0 15
create d43 0 15 snapshot-origin d36
settle d30
read d40 1 5
write d42 5 512*7d 512*72 512*9b 512*a4 512*f7 512*a8
message d20 0 listbadblocks
write d30 1 512*0d 512*4b 512*94 512*4f 512*8b
tick 3
tick 1
save d0 0 38
save d1 0 26
save d2 0 17
save d3 0 12
save d4 0 15
finish d41
remove d42
remove d24
remove d14
load d4 0 512*00
create d24 0 15 dust d4 0 512
create d42 0 38 snapshot d20 d24 PO 2
table d21
merge d41
settle d40
disk d4 38
load d4 2 512*5b 512*cd 512*91 512*4f
load d0 4 512*cf 512*47
save d0 0 38
save d1 0 26
save d2 0 17
save d3 0 12
save d4 0 15
load d4 13 512*a0
