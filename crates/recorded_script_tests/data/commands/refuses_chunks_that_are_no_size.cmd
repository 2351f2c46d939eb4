# Chunk sizes are powers of two from 1 to 1024.
# The grammar of lines is this project's.
create s 0 128 snapshot base cow P 3
create s 0 128 snapshot base cow P 0
create s 0 128 snapshot base cow P 2048
create s 0 128 snapshot base cow P 3 0
