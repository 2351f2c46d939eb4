# Flushes meet layers as dm-flakey's page has it for writes: what fails writes fails them, what fails reads lets them through, and
# what drops writes answers them. That bad blocks of dust stay, whatever is flushed, is this project's.
disk base 128
disk cow 64
disk cow2 64
disk cow3 64
create vol 0 128 snapshot-origin base
write vol 0 65536*11
create fl 0 64 flakey cow 0 1 1
create snap 0 128 snapshot base fl P 1
create fl2 0 64 flakey cow2 0 1 1 1 error_reads
create s2 0 128 snapshot base fl2 P 1
create du 0 64 dust cow3 0 512
create s3 0 128 snapshot base du P 1
start vol write 5 512*aa
step vol copy-read 1
step vol copy-read 2
step vol copy-read 3
step vol copy-write 1
step vol copy-write 2
step vol copy-write 3
message du 0 addbadblock 0
message du 0 addbadblock 2
message du 0 enable
tick 1
step vol flush-store snap
step vol flush-store s2
step vol flush-store s3
message du 0 countbadblocks
step vol write-area s2
step vol write-area s3
settle vol
tick 1
status snap
status s2
status s3
read s2 5 1
read s3 5 1
