# The last line may lack its end.
# The grammar of lines is this project's.
disk d 8
save d 0 1