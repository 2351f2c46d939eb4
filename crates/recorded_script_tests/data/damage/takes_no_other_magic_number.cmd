# A first sector that is neither fresh nor of the kernel's magic number is refused, and stays as it was.
# By the format of the kernel's persistent store; the refusals are this project's.
disk base 128
disk cow 64
create vol 0 128 snapshot-origin base
write vol 0 65536*11
load cow 0 1*53 1*6e 1*41 1*71 1*01 3*00 1*01 3*00 1*01 499*00
create snap 0 128 snapshot base cow P 1
save cow 0 1
save cow 1 63
