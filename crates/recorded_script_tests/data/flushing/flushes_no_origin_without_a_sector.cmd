# An origin without a sector takes no flush, as it takes no read.
# That a flush of a device makes what was written to it last is the block layer's rule; that it is asked for by a command is this project's.
disk base 8
create fl 0 0 flakey base 8 1 1
create vol 0 0 snapshot-origin fl
flush vol
read vol 0 1
