# `stop` takes the name of an origin, and no other word than `lose`. A refusal leaves all devices as they are.
# The command is this project's.
disk base 128
disk cow 64
create fl 0 64 flakey cow 0 1 1
create vol 0 128 snapshot-origin base
create snap 0 128 snapshot base fl P 1
stop
stop 9vol
stop vol snap
stop vol loses
stop lose vol
stop vol lose lose
stop nosuch lose
stop cow lose
stop snap lose
Stop vol
stop nosuch
stop base
stop cow
stop fl
stop snap
merge snap
stop snap
status snap
status vol
stop vol
stop vol
stop snap
remove base
remove fl
remove cow
