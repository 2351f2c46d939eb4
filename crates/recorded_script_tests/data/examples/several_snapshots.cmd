# Several snapshots of one origin: each shows its own moment.
disk base 128
disk first 64
disk second 64
disk third 64
create vol 0 128 snapshot-origin base
write vol 0 65536*11

# Monday's snapshot, a change, Tuesday's snapshot, another change of the same sector.
create monday 0 128 snapshot base first P 1
write vol 5 512*aa
create tuesday 0 128 snapshot base second P 1
write vol 5 512*bb
read monday 5 1
read tuesday 5 1
read vol 5 1

# Each has its own copy: Monday's was made at the first write, Tuesday's at the second.
status monday
status tuesday

# A snapshot may be written too. Nobody else sees it, and no other store grows.
write tuesday 9 512*77
read tuesday 9 1
read monday 9 1
read vol 9 1
status monday
status tuesday

# Each may have a chunk size of its own, here one of 4 sectors. Sector 33 is saved by all three: one sector each by Monday's and
# Tuesday's, and the four of its chunk by Wednesday's.
create wednesday 0 128 snapshot base third P 4
write vol 33 512*cc
status monday
status tuesday
status wednesday
read wednesday 32 4
remove wednesday

# An origin with snapshots stays, and a snapshot that goes changes no other.
remove vol
remove monday
read tuesday 5 1
remove tuesday
remove vol
save base 5 1
