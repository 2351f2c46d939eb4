# A flakey line as it is printed, and lines that are refused.
# By the admin-guide pages on dm-flakey and dm-dust.
disk d 8
create f 0 8 flakey d 0 02 1 0
table f
disk e 8
create g 0 8 flakey e 0 0 0
create g 0 8 flakey e 0 1 1 2 drop_writes error_writes
