# Layers are taken away from the top alone, and the disk below keeps all its bytes.
# By the admin-guide pages on dm-flakey and dm-dust.
disk base 8
load base 7 512*07
create du 0 6 dust base 0 1024
create fl 0 3 flakey du 2 5 7 1 error_reads
table fl
table du
save base 7 1
save du 0 1
load base 0 512*09
remove du
remove fl
remove du
load base 0 512*09
save base 0 8
remove base
remove base
