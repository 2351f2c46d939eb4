# An origin whose last chunk is short: 130 sectors in chunks of eight, so that chunk 16 has two sectors.
#
# The status line after the write, and the sectors of the saved chunk, are those of a Linux kernel for such devices.
disk base 130
disk cow 128

# The store is filled with ee behind its first chunk, so that one sees what is written.
load cow 8 61440*ee
create vol 0 130 snapshot-origin base
write vol 0 66560*11
create snap 0 130 snapshot base cow P 8
status snap
save cow 8 8

# The last sector changes: the two sectors of its chunk are copied, and no more.
write vol 129 512*aa
status snap
save cow 8 1
save cow 16 8
read snap 128 2
read vol 128 2

# Both end with sector 129.
read snap 130 1
read vol 129 2
