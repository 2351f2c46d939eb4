# A flakey layer may be told its own time, and all others stay as they are; a dust layer knows no time.
# By the admin-guide page on dm-flakey; that the time may be told to one layer is this project's own.
disk one 64
disk two 64
create fa 0 64 flakey one 0 3 3
create fb 0 64 flakey two 0 3 3
create va 0 64 snapshot-origin fa
create vb 0 64 snapshot-origin fb
message fa 0 tick 3
read va 0 1
read vb 0 1
message fa 0 tick 3
read va 0 1
tick 3
read va 0 1
read vb 0 1
message fb 0 tick 9
read va 0 1
read vb 0 1
message fb 0 tick 0
read vb 0 1
disk three 64
create low 0 64 flakey three 0 1 1 1 error_writes
create du 0 64 dust low 0 512
create vd 0 64 snapshot-origin du
message low 0 tick 1
write vd 0 512*aa
message low 0 tick 1
write vd 0 512*aa
message du 0 tick 1
message low 0 enable
message low 0 tick
message low 0 tick 1 1
message low 0 tick 4294967296
message three 0 tick 1
message vd 0 tick 1
message gone 0 tick 1
write vd 1 512*bb
table low
