# Beside a merge that is stopped after each event the origin is written, flushed and written again, and what was not flushed is
# lost: loaded again and merged, the writes before the flush stand, and those behind it may be lost.
# That a disk keeps what was flushed is how a volatile cache is defined; that a volume is stopped by a command is this project's.
disk base 48
disk cow 48
create vol 0 48 snapshot-origin base
write vol 0 24576*11
create snap 0 48 snapshot base cow P 1
write vol 4 15360*aa
write vol 40 1536*bb
flush vol
merge snap
write vol 42 512*42
write vol 44 512*44
flush vol
write vol 42 512*43
write vol 45 512*45
stop vol lose
save base 40 3
create vol 0 48 snapshot-origin base
create snap 0 48 snapshot base cow P 1
status snap
read snap 0 48
merge snap
settle vol
finish vol
save base 0 48
remove vol
remove base
remove cow
disk base 48
disk cow 48
create vol 0 48 snapshot-origin base
write vol 0 24576*11
create snap 0 48 snapshot base cow P 1
write vol 4 15360*aa
write vol 40 1536*bb
flush vol
merge snap
step vol merge-group
write vol 42 512*42
write vol 44 512*44
flush vol
write vol 42 512*43
write vol 45 512*45
stop vol lose
save base 40 3
create vol 0 48 snapshot-origin base
create snap 0 48 snapshot base cow P 1
status snap
read snap 0 48
merge snap
settle vol
finish vol
save base 0 48
remove vol
remove base
remove cow
disk base 48
disk cow 48
create vol 0 48 snapshot-origin base
write vol 0 24576*11
create snap 0 48 snapshot base cow P 1
write vol 4 15360*aa
write vol 40 1536*bb
flush vol
merge snap
step vol merge-group
step vol merge-read
write vol 42 512*42
write vol 44 512*44
flush vol
write vol 42 512*43
write vol 45 512*45
stop vol lose
save base 40 3
create vol 0 48 snapshot-origin base
create snap 0 48 snapshot base cow P 1
status snap
read snap 0 48
merge snap
settle vol
finish vol
save base 0 48
remove vol
remove base
remove cow
disk base 48
disk cow 48
create vol 0 48 snapshot-origin base
write vol 0 24576*11
create snap 0 48 snapshot base cow P 1
write vol 4 15360*aa
write vol 40 1536*bb
flush vol
merge snap
step vol merge-group
step vol merge-read
step vol merge-write
write vol 42 512*42
write vol 44 512*44
flush vol
write vol 42 512*43
write vol 45 512*45
stop vol lose
save base 40 3
create vol 0 48 snapshot-origin base
create snap 0 48 snapshot base cow P 1
status snap
read snap 0 48
merge snap
settle vol
finish vol
save base 0 48
remove vol
remove base
remove cow
disk base 48
disk cow 48
create vol 0 48 snapshot-origin base
write vol 0 24576*11
create snap 0 48 snapshot base cow P 1
write vol 4 15360*aa
write vol 40 1536*bb
flush vol
merge snap
step vol merge-group
step vol merge-read
step vol merge-write
step vol merge-flush
write vol 42 512*42
write vol 44 512*44
flush vol
write vol 42 512*43
write vol 45 512*45
stop vol lose
save base 40 3
create vol 0 48 snapshot-origin base
create snap 0 48 snapshot base cow P 1
status snap
read snap 0 48
merge snap
settle vol
finish vol
save base 0 48
remove vol
remove base
remove cow
disk base 48
disk cow 48
create vol 0 48 snapshot-origin base
write vol 0 24576*11
create snap 0 48 snapshot base cow P 1
write vol 4 15360*aa
write vol 40 1536*bb
flush vol
merge snap
step vol merge-group
step vol merge-read
step vol merge-write
step vol merge-flush
step vol merge-commit
write vol 42 512*42
write vol 44 512*44
flush vol
write vol 42 512*43
write vol 45 512*45
stop vol lose
save base 40 3
create vol 0 48 snapshot-origin base
create snap 0 48 snapshot base cow P 1
status snap
read snap 0 48
merge snap
settle vol
finish vol
save base 0 48
remove vol
remove base
remove cow
disk base 48
disk cow 48
create vol 0 48 snapshot-origin base
write vol 0 24576*11
create snap 0 48 snapshot base cow P 1
write vol 4 15360*aa
write vol 40 1536*bb
flush vol
merge snap
step vol merge-group
step vol merge-read
step vol merge-write
step vol merge-flush
step vol merge-commit
step vol merge-release
write vol 42 512*42
write vol 44 512*44
flush vol
write vol 42 512*43
write vol 45 512*45
stop vol lose
save base 40 3
create vol 0 48 snapshot-origin base
create snap 0 48 snapshot base cow P 1
status snap
read snap 0 48
merge snap
settle vol
finish vol
save base 0 48
remove vol
remove base
remove cow
disk base 48
disk cow 48
create vol 0 48 snapshot-origin base
write vol 0 24576*11
create snap 0 48 snapshot base cow P 1
write vol 4 15360*aa
write vol 40 1536*bb
flush vol
merge snap
step vol merge-group
step vol merge-read
step vol merge-write
step vol merge-flush
step vol merge-commit
step vol merge-release
step vol merge-area-read
write vol 42 512*42
write vol 44 512*44
flush vol
write vol 42 512*43
write vol 45 512*45
stop vol lose
save base 40 3
create vol 0 48 snapshot-origin base
create snap 0 48 snapshot base cow P 1
status snap
read snap 0 48
merge snap
settle vol
finish vol
save base 0 48
remove vol
remove base
remove cow
disk base 48
disk cow 48
create vol 0 48 snapshot-origin base
write vol 0 24576*11
create snap 0 48 snapshot base cow P 1
write vol 4 15360*aa
write vol 40 1536*bb
flush vol
merge snap
step vol merge-group
step vol merge-read
step vol merge-write
step vol merge-flush
step vol merge-commit
step vol merge-release
step vol merge-area-read
step vol merge-group
write vol 42 512*42
write vol 44 512*44
flush vol
write vol 42 512*43
write vol 45 512*45
stop vol lose
save base 40 3
create vol 0 48 snapshot-origin base
create snap 0 48 snapshot base cow P 1
status snap
read snap 0 48
merge snap
settle vol
finish vol
save base 0 48
remove vol
remove base
remove cow
disk base 48
disk cow 48
create vol 0 48 snapshot-origin base
write vol 0 24576*11
create snap 0 48 snapshot base cow P 1
write vol 4 15360*aa
write vol 40 1536*bb
flush vol
merge snap
step vol merge-group
step vol merge-read
step vol merge-write
step vol merge-flush
step vol merge-commit
step vol merge-release
step vol merge-area-read
step vol merge-group
step vol merge-read
write vol 42 512*42
write vol 44 512*44
flush vol
write vol 42 512*43
write vol 45 512*45
stop vol lose
save base 40 3
create vol 0 48 snapshot-origin base
create snap 0 48 snapshot base cow P 1
status snap
read snap 0 48
merge snap
settle vol
finish vol
save base 0 48
remove vol
remove base
remove cow
disk base 48
disk cow 48
create vol 0 48 snapshot-origin base
write vol 0 24576*11
create snap 0 48 snapshot base cow P 1
write vol 4 15360*aa
write vol 40 1536*bb
flush vol
merge snap
step vol merge-group
step vol merge-read
step vol merge-write
step vol merge-flush
step vol merge-commit
step vol merge-release
step vol merge-area-read
step vol merge-group
step vol merge-read
step vol merge-write
write vol 42 512*42
write vol 44 512*44
flush vol
write vol 42 512*43
write vol 45 512*45
stop vol lose
save base 40 3
create vol 0 48 snapshot-origin base
create snap 0 48 snapshot base cow P 1
status snap
read snap 0 48
merge snap
settle vol
finish vol
save base 0 48
remove vol
remove base
remove cow
