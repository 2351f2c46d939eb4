# A line that is no command is refused, and the lines behind it are done.
# The grammar of lines is this project's.
diskd 8
disk d 8
save d 0 1
