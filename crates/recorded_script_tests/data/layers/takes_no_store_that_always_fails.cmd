# A snapshot over an error device answers Io.
# By the admin-guide pages on dm-flakey and dm-dust.
disk base 128
disk cow 64
create vol 0 128 snapshot-origin base
write vol 0 65536*11
create er 0 64 error
create snap 0 128 snapshot base er P 1
