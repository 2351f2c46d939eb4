# Disks, layers and stores take no requests.
# The order of the events is that of docs/DESIGN.md, a volume as single events.
disk base 128
create fl 0 128 flakey base 0 1 1
create vol 0 128 snapshot-origin fl
start nosuch read 0 0
start nosuch read 0 1
start base read 128 1
start fl write 0 512*aa
start vol read 0 1
step nosuch issue 1
step vol issue 2
step vol issue 1
step vol issue 1
