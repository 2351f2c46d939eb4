# The words for a store are `P` and `PO`, and no others.
# By the admin-guide page on snapshots; the grammar of lines is this project's.
disk base 128
disk cow 4
create vol 0 128 snapshot-origin base
create a 0 128 snapshot base cow po 1
create a 0 128 snapshot base cow OP 1
create a 0 128 snapshot base cow P0 1
create a 0 128 snapshot base cow N 1
create a 0 128 snapshot base cow PO 3
create a 0 128 snapshot base cow PO x
create a 0 128 snapshot-merge base cow PO 1
create a 0 128 snapshot base cow PO 1 0
table a
