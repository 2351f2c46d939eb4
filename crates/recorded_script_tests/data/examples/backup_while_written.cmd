# A backup reads a chunk of the snapshot while somebody writes the same chunk of the origin, event by event.
disk base 128
disk cow 64
create vol 0 128 snapshot-origin base
write vol 0 65536*11
create snap 0 128 snapshot base cow P 1

# The backup's read is accepted first, and then the write. Each prints its number, and neither is done yet: the read is to go to
# the origin disk, where the chunk still is; the write waits until the snapshot has its own copy. That is copy 1.
start snap read 7 1
start vol write 7 512*aa

# The copy: the chunk is read from the origin disk, written to the store, and its pair is committed.
step vol copy-read 1
step vol copy-write 1
step vol flush-store snap
step vol write-area snap

# Now the pair stands on the store. But the backup's read is still to go to the origin disk, so the copy is not published, and
# the write may not go there.
step vol publish 1
step vol issue 3

# The backup's read is done: it gives the old bytes. Then the copy is published, and then the write is done.
step vol issue 2
step vol flush-store snap
step vol publish 1
step vol issue 3

# The snapshot shows the old chunk as before, from its store now.
read snap 7 1
read vol 7 1

# The same without single steps: the write is started, and `settle` does all events that are due. (The two reads above were
# requests 4 and 5.)
start vol write 9 512*bb
settle vol
read snap 9 1
read vol 7 3
