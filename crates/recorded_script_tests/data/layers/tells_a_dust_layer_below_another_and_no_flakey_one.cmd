# A message goes to the dust layer that it names, also below a flakey one.
# By the admin-guide pages on dm-flakey and dm-dust.
disk base 128
create du 0 128 dust base 0 1024
create fl 0 128 flakey du 0 1 1 1 error_writes
message du 0 addbadblock 2
message du 0 addbadblock 2
message du 0 addbadblock 64
tick 3
message du 0 queryblock 2
message fl 0 enable
