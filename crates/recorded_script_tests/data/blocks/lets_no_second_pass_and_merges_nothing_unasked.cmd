# A block lets no second pass for the layers of its volume, tells dust nothing, and begins no merge that no line asks for.
# By the admin-guide pages on dm-flakey and dm-dust; the commands are this project's.
disk base 128
disk cow 64
create fl 0 128 flakey base 0 1 1
create du 0 128 dust fl 0 512
create vol 0 128 snapshot-origin du
write vol 0 65536*11
create snap 0 128 snapshot du cow P 1
message du 0 addbadblock 60
message du 0 enable
par
1 read vol 0 1
1 write vol 5 512*aa
2 read snap 60 1
2 read vol 60 1
end
status vol
status snap
message du 0 queryblock 60
read vol 5 1
tick 1
read vol 0 1
tick 1
read vol 0 1
read snap 5 1
