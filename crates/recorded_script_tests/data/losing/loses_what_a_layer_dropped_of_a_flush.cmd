# A layer that drops writes answers a flush and does not pass it on: what was written before is lost all the same. One that fails
# reads alone passes it.
# That a disk keeps what was flushed is how a volatile cache is defined; that a volume is stopped by a command is this project's.
disk base 16
create fl 0 16 flakey base 0 3 1 1 drop_writes
create vol 0 16 snapshot-origin fl
write vol 3 512*aa
tick 3
flush vol
stop vol lose
save base 3 1
disk b2 16
create f2 0 16 flakey b2 0 1 1 1 error_reads
create v2 0 16 snapshot-origin f2
write v2 3 512*aa
tick 1
read v2 3 1
flush v2
stop v2 lose
save b2 3 1
