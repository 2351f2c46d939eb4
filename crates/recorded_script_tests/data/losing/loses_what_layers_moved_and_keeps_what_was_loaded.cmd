# A loss is of the disk at the bottom, whole, whatever part of it the layers show; what a command loaded is kept.
# That a disk keeps what was flushed is how a volatile cache is defined; that a volume is stopped by a command is this project's.
disk base 16
load base 0 512*01
load base 15 512*0f
create fl 0 8 flakey base 4 1 0
create du 0 8 dust fl 0 512
create vol 0 8 snapshot-origin du
write vol 0 4096*aa
save base 3 10
stop vol lose
save base 0 16
