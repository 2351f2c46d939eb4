# Each valid word but zero is valid, and bytes behind the header's sixteen are not looked at.
# By the format of the kernel's persistent store; the refusals are this project's.
disk base 128
disk cow 64
create vol 0 128 snapshot-origin base
write vol 0 65536*11
load cow 0 1*53 1*6e 1*41 1*70 1*02 3*00 1*01 3*00 1*01 3*00 496*ff
create snap 0 128 snapshot base cow P 1
