# A merge of groups of two areas is stopped after events of each, and what was not flushed is lost: pairs that were cleared come
# back, and the merge that is done again leaves what the snapshot showed.
# That a disk keeps what was flushed is how a volatile cache is defined; that a volume is stopped by a command is this project's.
disk base 48
disk cow 48
create vol 0 48 snapshot-origin base
write vol 0 24576*11
create snap 0 48 snapshot base cow P 1
write vol 4 15360*aa
write vol 40 1536*bb
merge snap
stop vol lose
create vol 0 48 snapshot-origin base
create snap 0 48 snapshot base cow P 1
status snap
read snap 0 48
merge snap
settle vol
finish vol
save base 0 48
remove vol
remove base
remove cow
disk base 48
disk cow 48
create vol 0 48 snapshot-origin base
write vol 0 24576*11
create snap 0 48 snapshot base cow P 1
write vol 4 15360*aa
write vol 40 1536*bb
merge snap
step vol merge-group
stop vol lose
create vol 0 48 snapshot-origin base
create snap 0 48 snapshot base cow P 1
status snap
read snap 0 48
merge snap
settle vol
finish vol
save base 0 48
remove vol
remove base
remove cow
disk base 48
disk cow 48
create vol 0 48 snapshot-origin base
write vol 0 24576*11
create snap 0 48 snapshot base cow P 1
write vol 4 15360*aa
write vol 40 1536*bb
merge snap
step vol merge-group
step vol merge-read
stop vol lose
create vol 0 48 snapshot-origin base
create snap 0 48 snapshot base cow P 1
status snap
read snap 0 48
merge snap
settle vol
finish vol
save base 0 48
remove vol
remove base
remove cow
disk base 48
disk cow 48
create vol 0 48 snapshot-origin base
write vol 0 24576*11
create snap 0 48 snapshot base cow P 1
write vol 4 15360*aa
write vol 40 1536*bb
merge snap
step vol merge-group
step vol merge-read
step vol merge-write
stop vol lose
create vol 0 48 snapshot-origin base
create snap 0 48 snapshot base cow P 1
status snap
read snap 0 48
merge snap
settle vol
finish vol
save base 0 48
remove vol
remove base
remove cow
disk base 48
disk cow 48
create vol 0 48 snapshot-origin base
write vol 0 24576*11
create snap 0 48 snapshot base cow P 1
write vol 4 15360*aa
write vol 40 1536*bb
merge snap
step vol merge-group
step vol merge-read
step vol merge-write
step vol merge-flush
stop vol lose
create vol 0 48 snapshot-origin base
create snap 0 48 snapshot base cow P 1
status snap
read snap 0 48
merge snap
settle vol
finish vol
save base 0 48
remove vol
remove base
remove cow
disk base 48
disk cow 48
create vol 0 48 snapshot-origin base
write vol 0 24576*11
create snap 0 48 snapshot base cow P 1
write vol 4 15360*aa
write vol 40 1536*bb
merge snap
step vol merge-group
step vol merge-read
step vol merge-write
step vol merge-flush
step vol merge-commit
stop vol lose
create vol 0 48 snapshot-origin base
create snap 0 48 snapshot base cow P 1
status snap
read snap 0 48
merge snap
settle vol
finish vol
save base 0 48
remove vol
remove base
remove cow
disk base 48
disk cow 48
create vol 0 48 snapshot-origin base
write vol 0 24576*11
create snap 0 48 snapshot base cow P 1
write vol 4 15360*aa
write vol 40 1536*bb
merge snap
step vol merge-group
step vol merge-read
step vol merge-write
step vol merge-flush
step vol merge-commit
step vol merge-release
stop vol lose
create vol 0 48 snapshot-origin base
create snap 0 48 snapshot base cow P 1
status snap
read snap 0 48
merge snap
settle vol
finish vol
save base 0 48
remove vol
remove base
remove cow
disk base 48
disk cow 48
create vol 0 48 snapshot-origin base
write vol 0 24576*11
create snap 0 48 snapshot base cow P 1
write vol 4 15360*aa
write vol 40 1536*bb
merge snap
step vol merge-group
step vol merge-read
step vol merge-write
step vol merge-flush
step vol merge-commit
step vol merge-release
step vol merge-area-read
stop vol lose
create vol 0 48 snapshot-origin base
create snap 0 48 snapshot base cow P 1
status snap
read snap 0 48
merge snap
settle vol
finish vol
save base 0 48
remove vol
remove base
remove cow
disk base 48
disk cow 48
create vol 0 48 snapshot-origin base
write vol 0 24576*11
create snap 0 48 snapshot base cow P 1
write vol 4 15360*aa
write vol 40 1536*bb
merge snap
step vol merge-group
step vol merge-read
step vol merge-write
step vol merge-flush
step vol merge-commit
step vol merge-release
step vol merge-area-read
step vol merge-group
stop vol lose
create vol 0 48 snapshot-origin base
create snap 0 48 snapshot base cow P 1
status snap
read snap 0 48
merge snap
settle vol
finish vol
save base 0 48
remove vol
remove base
remove cow
disk base 48
disk cow 48
create vol 0 48 snapshot-origin base
write vol 0 24576*11
create snap 0 48 snapshot base cow P 1
write vol 4 15360*aa
write vol 40 1536*bb
merge snap
step vol merge-group
step vol merge-read
step vol merge-write
step vol merge-flush
step vol merge-commit
step vol merge-release
step vol merge-area-read
step vol merge-group
step vol merge-read
stop vol lose
create vol 0 48 snapshot-origin base
create snap 0 48 snapshot base cow P 1
status snap
read snap 0 48
merge snap
settle vol
finish vol
save base 0 48
remove vol
remove base
remove cow
disk base 48
disk cow 48
create vol 0 48 snapshot-origin base
write vol 0 24576*11
create snap 0 48 snapshot base cow P 1
write vol 4 15360*aa
write vol 40 1536*bb
merge snap
step vol merge-group
step vol merge-read
step vol merge-write
step vol merge-flush
step vol merge-commit
step vol merge-release
step vol merge-area-read
step vol merge-group
step vol merge-read
step vol merge-write
stop vol lose
create vol 0 48 snapshot-origin base
create snap 0 48 snapshot base cow P 1
status snap
read snap 0 48
merge snap
settle vol
finish vol
save base 0 48
remove vol
remove base
remove cow
disk base 48
disk cow 48
create vol 0 48 snapshot-origin base
write vol 0 24576*11
create snap 0 48 snapshot base cow P 1
write vol 4 15360*aa
write vol 40 1536*bb
merge snap
step vol merge-group
step vol merge-read
step vol merge-write
step vol merge-flush
step vol merge-commit
step vol merge-release
step vol merge-area-read
step vol merge-group
step vol merge-read
step vol merge-write
step vol merge-read
stop vol lose
create vol 0 48 snapshot-origin base
create snap 0 48 snapshot base cow P 1
status snap
read snap 0 48
merge snap
settle vol
finish vol
save base 0 48
remove vol
remove base
remove cow
disk base 48
disk cow 48
create vol 0 48 snapshot-origin base
write vol 0 24576*11
create snap 0 48 snapshot base cow P 1
write vol 4 15360*aa
write vol 40 1536*bb
merge snap
step vol merge-group
step vol merge-read
step vol merge-write
step vol merge-flush
step vol merge-commit
step vol merge-release
step vol merge-area-read
step vol merge-group
step vol merge-read
step vol merge-write
step vol merge-read
step vol merge-write
stop vol lose
create vol 0 48 snapshot-origin base
create snap 0 48 snapshot base cow P 1
status snap
read snap 0 48
merge snap
settle vol
finish vol
save base 0 48
remove vol
remove base
remove cow
disk base 48
disk cow 48
create vol 0 48 snapshot-origin base
write vol 0 24576*11
create snap 0 48 snapshot base cow P 1
write vol 4 15360*aa
write vol 40 1536*bb
merge snap
step vol merge-group
step vol merge-read
step vol merge-write
step vol merge-flush
step vol merge-commit
step vol merge-release
step vol merge-area-read
step vol merge-group
step vol merge-read
step vol merge-write
step vol merge-read
step vol merge-write
step vol merge-flush
stop vol lose
create vol 0 48 snapshot-origin base
create snap 0 48 snapshot base cow P 1
status snap
read snap 0 48
merge snap
settle vol
finish vol
save base 0 48
remove vol
remove base
remove cow
disk base 48
disk cow 48
create vol 0 48 snapshot-origin base
write vol 0 24576*11
create snap 0 48 snapshot base cow P 1
write vol 4 15360*aa
write vol 40 1536*bb
merge snap
step vol merge-group
step vol merge-read
step vol merge-write
step vol merge-flush
step vol merge-commit
step vol merge-release
step vol merge-area-read
step vol merge-group
step vol merge-read
step vol merge-write
step vol merge-read
step vol merge-write
step vol merge-flush
step vol merge-commit
stop vol lose
create vol 0 48 snapshot-origin base
create snap 0 48 snapshot base cow P 1
status snap
read snap 0 48
merge snap
settle vol
finish vol
save base 0 48
remove vol
remove base
remove cow
disk base 48
disk cow 48
create vol 0 48 snapshot-origin base
write vol 0 24576*11
create snap 0 48 snapshot base cow P 1
write vol 4 15360*aa
write vol 40 1536*bb
merge snap
step vol merge-group
step vol merge-read
step vol merge-write
step vol merge-flush
step vol merge-commit
step vol merge-release
step vol merge-area-read
step vol merge-group
step vol merge-read
step vol merge-write
step vol merge-read
step vol merge-write
step vol merge-flush
step vol merge-commit
step vol merge-release
stop vol lose
create vol 0 48 snapshot-origin base
create snap 0 48 snapshot base cow P 1
status snap
read snap 0 48
merge snap
settle vol
finish vol
save base 0 48
remove vol
remove base
remove cow
disk base 48
disk cow 48
create vol 0 48 snapshot-origin base
write vol 0 24576*11
create snap 0 48 snapshot base cow P 1
write vol 4 15360*aa
write vol 40 1536*bb
merge snap
step vol merge-group
step vol merge-read
step vol merge-write
step vol merge-flush
step vol merge-commit
step vol merge-release
step vol merge-area-read
step vol merge-group
step vol merge-read
step vol merge-write
step vol merge-read
step vol merge-write
step vol merge-flush
step vol merge-commit
step vol merge-release
step vol merge-group
stop vol lose
create vol 0 48 snapshot-origin base
create snap 0 48 snapshot base cow P 1
status snap
read snap 0 48
merge snap
settle vol
finish vol
save base 0 48
remove vol
remove base
remove cow
disk base 48
disk cow 48
create vol 0 48 snapshot-origin base
write vol 0 24576*11
create snap 0 48 snapshot base cow P 1
write vol 4 15360*aa
write vol 40 1536*bb
merge snap
step vol merge-group
step vol merge-read
step vol merge-write
step vol merge-flush
step vol merge-commit
step vol merge-release
step vol merge-area-read
step vol merge-group
step vol merge-read
step vol merge-write
step vol merge-read
step vol merge-write
step vol merge-flush
step vol merge-commit
step vol merge-release
step vol merge-group
step vol merge-read
stop vol lose
create vol 0 48 snapshot-origin base
create snap 0 48 snapshot base cow P 1
status snap
read snap 0 48
merge snap
settle vol
finish vol
save base 0 48
remove vol
remove base
remove cow
disk base 48
disk cow 48
create vol 0 48 snapshot-origin base
write vol 0 24576*11
create snap 0 48 snapshot base cow P 1
write vol 4 15360*aa
write vol 40 1536*bb
merge snap
step vol merge-group
step vol merge-read
step vol merge-write
step vol merge-flush
step vol merge-commit
step vol merge-release
step vol merge-area-read
step vol merge-group
step vol merge-read
step vol merge-write
step vol merge-read
step vol merge-write
step vol merge-flush
step vol merge-commit
step vol merge-release
step vol merge-group
step vol merge-read
step vol merge-write
stop vol lose
create vol 0 48 snapshot-origin base
create snap 0 48 snapshot base cow P 1
status snap
read snap 0 48
merge snap
settle vol
finish vol
save base 0 48
remove vol
remove base
remove cow
disk base 48
disk cow 48
create vol 0 48 snapshot-origin base
write vol 0 24576*11
create snap 0 48 snapshot base cow P 1
write vol 4 15360*aa
write vol 40 1536*bb
merge snap
step vol merge-group
step vol merge-read
step vol merge-write
step vol merge-flush
step vol merge-commit
step vol merge-release
step vol merge-area-read
step vol merge-group
step vol merge-read
step vol merge-write
step vol merge-read
step vol merge-write
step vol merge-flush
step vol merge-commit
step vol merge-release
step vol merge-group
step vol merge-read
step vol merge-write
step vol merge-read
stop vol lose
create vol 0 48 snapshot-origin base
create snap 0 48 snapshot base cow P 1
status snap
read snap 0 48
merge snap
settle vol
finish vol
save base 0 48
remove vol
remove base
remove cow
disk base 48
disk cow 48
create vol 0 48 snapshot-origin base
write vol 0 24576*11
create snap 0 48 snapshot base cow P 1
write vol 4 15360*aa
write vol 40 1536*bb
merge snap
step vol merge-group
step vol merge-read
step vol merge-write
step vol merge-flush
step vol merge-commit
step vol merge-release
step vol merge-area-read
step vol merge-group
step vol merge-read
step vol merge-write
step vol merge-read
step vol merge-write
step vol merge-flush
step vol merge-commit
step vol merge-release
step vol merge-group
step vol merge-read
step vol merge-write
step vol merge-read
step vol merge-write
step vol merge-read
step vol merge-write
step vol merge-read
step vol merge-write
step vol merge-read
step vol merge-write
step vol merge-read
step vol merge-write
step vol merge-read
step vol merge-write
step vol merge-read
step vol merge-write
step vol merge-read
step vol merge-write
step vol merge-read
step vol merge-write
step vol merge-read
step vol merge-write
step vol merge-read
step vol merge-write
step vol merge-read
step vol merge-write
step vol merge-read
step vol merge-write
step vol merge-read
step vol merge-write
step vol merge-read
step vol merge-write
step vol merge-read
step vol merge-write
step vol merge-read
step vol merge-write
step vol merge-read
step vol merge-write
step vol merge-read
step vol merge-write
step vol merge-read
step vol merge-write
step vol merge-read
step vol merge-write
step vol merge-read
step vol merge-write
step vol merge-read
step vol merge-write
step vol merge-read
step vol merge-write
step vol merge-read
step vol merge-write
step vol merge-read
step vol merge-write
step vol merge-read
step vol merge-write
step vol merge-read
step vol merge-write
stop vol lose
create vol 0 48 snapshot-origin base
create snap 0 48 snapshot base cow P 1
status snap
read snap 0 48
merge snap
settle vol
finish vol
save base 0 48
remove vol
remove base
remove cow
disk base 48
disk cow 48
create vol 0 48 snapshot-origin base
write vol 0 24576*11
create snap 0 48 snapshot base cow P 1
write vol 4 15360*aa
write vol 40 1536*bb
merge snap
step vol merge-group
step vol merge-read
step vol merge-write
step vol merge-flush
step vol merge-commit
step vol merge-release
step vol merge-area-read
step vol merge-group
step vol merge-read
step vol merge-write
step vol merge-read
step vol merge-write
step vol merge-flush
step vol merge-commit
step vol merge-release
step vol merge-group
step vol merge-read
step vol merge-write
step vol merge-read
step vol merge-write
step vol merge-read
step vol merge-write
step vol merge-read
step vol merge-write
step vol merge-read
step vol merge-write
step vol merge-read
step vol merge-write
step vol merge-read
step vol merge-write
step vol merge-read
step vol merge-write
step vol merge-read
step vol merge-write
step vol merge-read
step vol merge-write
step vol merge-read
step vol merge-write
step vol merge-read
step vol merge-write
step vol merge-read
step vol merge-write
step vol merge-read
step vol merge-write
step vol merge-read
step vol merge-write
step vol merge-read
step vol merge-write
step vol merge-read
step vol merge-write
step vol merge-read
step vol merge-write
step vol merge-read
step vol merge-write
step vol merge-read
step vol merge-write
step vol merge-read
step vol merge-write
step vol merge-read
step vol merge-write
step vol merge-read
step vol merge-write
step vol merge-read
step vol merge-write
step vol merge-read
step vol merge-write
step vol merge-read
step vol merge-write
step vol merge-read
step vol merge-write
step vol merge-read
step vol merge-write
step vol merge-read
step vol merge-write
step vol merge-read
stop vol lose
create vol 0 48 snapshot-origin base
create snap 0 48 snapshot base cow P 1
status snap
read snap 0 48
merge snap
settle vol
finish vol
save base 0 48
remove vol
remove base
remove cow
disk base 48
disk cow 48
create vol 0 48 snapshot-origin base
write vol 0 24576*11
create snap 0 48 snapshot base cow P 1
write vol 4 15360*aa
write vol 40 1536*bb
merge snap
step vol merge-group
step vol merge-read
step vol merge-write
step vol merge-flush
step vol merge-commit
step vol merge-release
step vol merge-area-read
step vol merge-group
step vol merge-read
step vol merge-write
step vol merge-read
step vol merge-write
step vol merge-flush
step vol merge-commit
step vol merge-release
step vol merge-group
step vol merge-read
step vol merge-write
step vol merge-read
step vol merge-write
step vol merge-read
step vol merge-write
step vol merge-read
step vol merge-write
step vol merge-read
step vol merge-write
step vol merge-read
step vol merge-write
step vol merge-read
step vol merge-write
step vol merge-read
step vol merge-write
step vol merge-read
step vol merge-write
step vol merge-read
step vol merge-write
step vol merge-read
step vol merge-write
step vol merge-read
step vol merge-write
step vol merge-read
step vol merge-write
step vol merge-read
step vol merge-write
step vol merge-read
step vol merge-write
step vol merge-read
step vol merge-write
step vol merge-read
step vol merge-write
step vol merge-read
step vol merge-write
step vol merge-read
step vol merge-write
step vol merge-read
step vol merge-write
step vol merge-read
step vol merge-write
step vol merge-read
step vol merge-write
step vol merge-read
step vol merge-write
step vol merge-read
step vol merge-write
step vol merge-read
step vol merge-write
step vol merge-read
step vol merge-write
step vol merge-read
step vol merge-write
step vol merge-read
step vol merge-write
step vol merge-read
step vol merge-write
step vol merge-read
step vol merge-write
stop vol lose
create vol 0 48 snapshot-origin base
create snap 0 48 snapshot base cow P 1
status snap
read snap 0 48
merge snap
settle vol
finish vol
save base 0 48
remove vol
remove base
remove cow
disk base 48
disk cow 48
create vol 0 48 snapshot-origin base
write vol 0 24576*11
create snap 0 48 snapshot base cow P 1
write vol 4 15360*aa
write vol 40 1536*bb
merge snap
step vol merge-group
step vol merge-read
step vol merge-write
step vol merge-flush
step vol merge-commit
step vol merge-release
step vol merge-area-read
step vol merge-group
step vol merge-read
step vol merge-write
step vol merge-read
step vol merge-write
step vol merge-flush
step vol merge-commit
step vol merge-release
step vol merge-group
step vol merge-read
step vol merge-write
step vol merge-read
step vol merge-write
step vol merge-read
step vol merge-write
step vol merge-read
step vol merge-write
step vol merge-read
step vol merge-write
step vol merge-read
step vol merge-write
step vol merge-read
step vol merge-write
step vol merge-read
step vol merge-write
step vol merge-read
step vol merge-write
step vol merge-read
step vol merge-write
step vol merge-read
step vol merge-write
step vol merge-read
step vol merge-write
step vol merge-read
step vol merge-write
step vol merge-read
step vol merge-write
step vol merge-read
step vol merge-write
step vol merge-read
step vol merge-write
step vol merge-read
step vol merge-write
step vol merge-read
step vol merge-write
step vol merge-read
step vol merge-write
step vol merge-read
step vol merge-write
step vol merge-read
step vol merge-write
step vol merge-read
step vol merge-write
step vol merge-read
step vol merge-write
step vol merge-read
step vol merge-write
step vol merge-read
step vol merge-write
step vol merge-read
step vol merge-write
step vol merge-read
step vol merge-write
step vol merge-read
step vol merge-write
step vol merge-read
step vol merge-write
step vol merge-read
step vol merge-write
step vol merge-flush
stop vol lose
create vol 0 48 snapshot-origin base
create snap 0 48 snapshot base cow P 1
status snap
read snap 0 48
merge snap
settle vol
finish vol
save base 0 48
remove vol
remove base
remove cow
disk base 48
disk cow 48
create vol 0 48 snapshot-origin base
write vol 0 24576*11
create snap 0 48 snapshot base cow P 1
write vol 4 15360*aa
write vol 40 1536*bb
merge snap
step vol merge-group
step vol merge-read
step vol merge-write
step vol merge-flush
step vol merge-commit
step vol merge-release
step vol merge-area-read
step vol merge-group
step vol merge-read
step vol merge-write
step vol merge-read
step vol merge-write
step vol merge-flush
step vol merge-commit
step vol merge-release
step vol merge-group
step vol merge-read
step vol merge-write
step vol merge-read
step vol merge-write
step vol merge-read
step vol merge-write
step vol merge-read
step vol merge-write
step vol merge-read
step vol merge-write
step vol merge-read
step vol merge-write
step vol merge-read
step vol merge-write
step vol merge-read
step vol merge-write
step vol merge-read
step vol merge-write
step vol merge-read
step vol merge-write
step vol merge-read
step vol merge-write
step vol merge-read
step vol merge-write
step vol merge-read
step vol merge-write
step vol merge-read
step vol merge-write
step vol merge-read
step vol merge-write
step vol merge-read
step vol merge-write
step vol merge-read
step vol merge-write
step vol merge-read
step vol merge-write
step vol merge-read
step vol merge-write
step vol merge-read
step vol merge-write
step vol merge-read
step vol merge-write
step vol merge-read
step vol merge-write
step vol merge-read
step vol merge-write
step vol merge-read
step vol merge-write
step vol merge-read
step vol merge-write
step vol merge-read
step vol merge-write
step vol merge-read
step vol merge-write
step vol merge-read
step vol merge-write
step vol merge-read
step vol merge-write
step vol merge-read
step vol merge-write
step vol merge-flush
step vol merge-commit
stop vol lose
create vol 0 48 snapshot-origin base
create snap 0 48 snapshot base cow P 1
status snap
read snap 0 48
merge snap
settle vol
finish vol
save base 0 48
remove vol
remove base
remove cow
disk base 48
disk cow 48
create vol 0 48 snapshot-origin base
write vol 0 24576*11
create snap 0 48 snapshot base cow P 1
write vol 4 15360*aa
write vol 40 1536*bb
merge snap
step vol merge-group
step vol merge-read
step vol merge-write
step vol merge-flush
step vol merge-commit
step vol merge-release
step vol merge-area-read
step vol merge-group
step vol merge-read
step vol merge-write
step vol merge-read
step vol merge-write
step vol merge-flush
step vol merge-commit
step vol merge-release
step vol merge-group
step vol merge-read
step vol merge-write
step vol merge-read
step vol merge-write
step vol merge-read
step vol merge-write
step vol merge-read
step vol merge-write
step vol merge-read
step vol merge-write
step vol merge-read
step vol merge-write
step vol merge-read
step vol merge-write
step vol merge-read
step vol merge-write
step vol merge-read
step vol merge-write
step vol merge-read
step vol merge-write
step vol merge-read
step vol merge-write
step vol merge-read
step vol merge-write
step vol merge-read
step vol merge-write
step vol merge-read
step vol merge-write
step vol merge-read
step vol merge-write
step vol merge-read
step vol merge-write
step vol merge-read
step vol merge-write
step vol merge-read
step vol merge-write
step vol merge-read
step vol merge-write
step vol merge-read
step vol merge-write
step vol merge-read
step vol merge-write
step vol merge-read
step vol merge-write
step vol merge-read
step vol merge-write
step vol merge-read
step vol merge-write
step vol merge-read
step vol merge-write
step vol merge-read
step vol merge-write
step vol merge-read
step vol merge-write
step vol merge-read
step vol merge-write
step vol merge-read
step vol merge-write
step vol merge-read
step vol merge-write
step vol merge-flush
step vol merge-commit
step vol merge-release
stop vol lose
create vol 0 48 snapshot-origin base
create snap 0 48 snapshot base cow P 1
status snap
read snap 0 48
merge snap
settle vol
finish vol
save base 0 48
remove vol
remove base
remove cow
