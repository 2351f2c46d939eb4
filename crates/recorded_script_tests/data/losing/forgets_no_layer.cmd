# A loss leaves the moments of layers, their lists of bad blocks and their lines as a plain stop does.
# That a disk keeps what was flushed is how a volatile cache is defined; that a volume is stopped by a command is this project's.
disk base 16
create fl 0 16 flakey base 0 1 2 1 error_reads
create du 0 16 dust fl 0 512
message du 0 addbadblock 3
message du 0 enable
create vol 0 16 snapshot-origin du
tick 1
write vol 0 512*aa
stop vol lose
table fl
table du
message du 0 countbadblocks
create vol 0 16 snapshot-origin du
read vol 0 1
tick 2
read vol 0 1
read vol 3 1
write vol 3 512*bb
message du 0 countbadblocks
