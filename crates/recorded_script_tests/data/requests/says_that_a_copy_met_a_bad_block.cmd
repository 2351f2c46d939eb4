# A copy that reads a bad block tells `fault`, and spoils its snapshot.
# The order of the events is that of docs/DESIGN.md, a volume as single events.
disk base 128
disk cow 64
create du 0 128 dust base 0 1024
create vol 0 128 snapshot-origin du
write vol 0 65536*11
create snap 0 128 snapshot du cow P 1
message du 0 addbadblock 2
message du 0 enable
start vol write 4 512*aa
step vol copy-read 1
status snap
step vol copy-write 1
step vol issue 2
step vol write-invalid snap
step vol flush-store snap
step vol issue 2
read vol 4 2
