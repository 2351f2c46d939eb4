# A store that has a header keeps its chunk size, whatever a table line says; `table` prints it.
# The grammar of lines is this project's.
disk base 128
disk cow 64
create vol 0 128 snapshot-origin base
write vol 0 65536*11
create snap 0 128 snapshot base cow P 2
status snap
write vol 5 512*aa
status snap
save cow 2 1
save cow 4 2
remove snap
create snap 0 128 snapshot base cow P 1 0
table snap
