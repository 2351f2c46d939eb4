# Table lines, messages and raw sectors of devices that a volume uses.
# By the admin-guide pages on dm-flakey and dm-dust.
disk base 128
create fl 0 128 flakey base 0 2 1
create vol 0 128 snapshot-origin fl
disk cow 64
create store 0 64 flakey cow 0 1 1
create snap 0 128 snapshot fl store P 8
message store 0 enable
message snap 0 enable
table snap
table store
table cow
save cow 0 1
save base 0 1
save fl 0 1
remove vol
