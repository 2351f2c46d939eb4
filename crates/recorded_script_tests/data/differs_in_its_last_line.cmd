# The answers that are wanted here are wrong on purpose: a new disk is zero. So the program that compares is itself tested.
disk d 8
save d 0 1
