# `checkpoint` takes the name of an origin and no other word. It changes no device, whatever is in flight, also beside a merge.
# The command is this project's.
disk base 128
disk cow 64
create fl 0 64 flakey cow 0 1 1
create vol 0 128 snapshot-origin base
write vol 0 65536*11
create snap 0 128 snapshot base fl P 1
checkpoint
checkpoint 9vol
checkpoint vol snap
Checkpoint vol
checkpoint nosuch
checkpoint base
checkpoint cow
checkpoint fl
checkpoint snap
checkpoint vol
start vol write 5 512*aa
checkpoint vol
step vol copy-read 1
checkpoint vol
settle vol
read snap 5 1
read vol 5 1
merge snap
checkpoint vol
checkpoint snap
status vol
settle vol
finish vol
read vol 5 1
checkpoint vol
remove vol
checkpoint vol
