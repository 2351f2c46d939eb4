# A file without a command prints nothing.
# The grammar of lines is this project's.
