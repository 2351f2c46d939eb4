# What is refused before, while and after a snapshot is merged, beside other refusals.
# The numbers of the refusals and their order are this project's.
disk base 128
disk cow 64
create vol 0 128 snapshot-origin base
write vol 0 65536*11
create snap 0 128 snapshot base cow P 1
read nosuch 0 1
write vol 127 1024*aa
read vol 127 1
create snap 0 128 snapshot base cow P 1
finish vol
resume vol
create f2 0 128 flakey base 0 1 1
merge snap
status vol
merge snap
remove snap
finish vol
disk d 0
