# A request whose device fails answers Io, and nothing else changes.
# The order of the events is that of docs/DESIGN.md, a volume as single events.
disk base 128
create fl 0 128 flakey base 0 1 1 1 error_writes
create vol 0 128 snapshot-origin fl
write vol 0 65536*11
start vol write 5 512*aa
start vol read 5 1
tick 1
step vol issue 2
settle vol
tick 1
write vol 5 512*aa
read vol 5 1
