# A store without room for its header and first area is refused.
# By the format of the kernel's persistent store; the refusals are this project's.
disk base 128
disk cow 1
create vol 0 128 snapshot-origin base
write vol 0 65536*11
create snap 0 128 snapshot base cow P 1
