# A volume over a dust layer is stopped, with a snapshot that was lost while its flakey store failed, and with another one of which
# a group is being merged. All layers stay, with their lines, their bad blocks and their time: the one store has worked again since a
# second, and the other one fails until the next. The tops of the stacks are free, what is below them is in use, and another volume
# is as it was.
# By the admin-guide pages on dm-flakey and dm-dust; the commands are this project's.
disk base 128
disk cow 64
disk cow2 64
disk other 8
create du 0 128 dust base 0 512
create fl 0 64 flakey cow 0 1 1 1 error_writes
create f2 0 64 flakey cow2 0 2 1
create vol 0 128 snapshot-origin du
create o2 0 8 snapshot-origin other
write o2 0 512*cc
create snap 0 128 snapshot du fl P 1
create s2 0 128 snapshot du f2 P 1
write vol 5 512*aa
message du 0 addbadblock 60
message du 0 enable
tick 1
write vol 7 512*77
status snap
merge s2
step vol merge-group
step vol merge-read
stop vol
table du
table fl
table f2
table vol
table snap
table s2
load base 0 512*00
load cow 0 512*00
load cow2 0 512*00
message du 0 queryblock 60
read o2 0 1
create vol 0 128 snapshot-origin du
read vol 60 1
write vol 60 512*66
message du 0 queryblock 60
tick 1
create snap 0 128 snapshot du fl P 1
read snap 5 1
read snap 7 1
create s2 0 128 snapshot du f2 P 1
tick 1
create s2 0 128 snapshot du f2 P 1
read s2 7 1
read vol 5 1
stop o2
load other 0 512*dd
