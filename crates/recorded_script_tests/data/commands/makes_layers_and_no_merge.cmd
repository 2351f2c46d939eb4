# Layers are made over devices that nothing uses, origins over a whole device; a merge cannot be made.
# The grammar of lines is this project's.
disk base 128
create fl 0 128 flakey base 0 1 1 1 error_writes
create du 0 128 dust base 0 1024
create du 0 128 dust fl 0 1024
create er 0 64 error
create m 0 128 snapshot-merge base cow P 1
create m 0 128 snapshot-merge base cow P 3
create s 0 128 snapshot base cow P 3
status fl
create base 0 64 error
create base 0 64 snapshot-merge base cow P 1
create far 0 129 flakey du 0 1 1
create vol 0 128 snapshot-origin fl
create vol 0 127 snapshot-origin du
create vol 0 128 snapshot-origin du
create top 0 128 dust vol 0 512
