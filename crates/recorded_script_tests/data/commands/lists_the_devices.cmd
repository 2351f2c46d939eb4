# One line tells all devices, each with its table line: first those that no volume uses, each stack from its top, then each volume.
# The form is this project's own; the lines are those of table.
ls
disk base 128
disk cow 64
disk d 8
ls
create fl 0 64 flakey cow 0 1 2 1 error_writes
create er 0 4 error
create du 0 8 dust d 0 512
ls
create vol 0 128 snapshot-origin base
create snap 0 128 snapshot base fl PO 4
ls
write vol 0 512*aa
merge snap
ls
settle vol
finish vol
remove er
ls
ls vol
lss
