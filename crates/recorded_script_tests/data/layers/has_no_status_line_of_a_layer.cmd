# Layers have table lines and no status lines, reads or raw sectors of their own.
# By the admin-guide pages on dm-flakey and dm-dust.
disk base 128
create fl 0 100 flakey base 28 1 0
create du 0 100 dust fl 0 1024
create er 0 64 error
table fl
table du
table er
table base
status du
status er
read du 0 1
save du 0 1
save base 0 1
remove fl
remove du
remove fl
remove er
table er
