# The store is flushed too, after its refusals: a store that is no good is told as that, and one that takes no flush is not written.
# That an attach flushes is this project's; what a layer does with it is dm-flakey's page.
disk base 128
disk cow 64
create vol 0 128 snapshot-origin base
create fl 0 64 flakey cow 0 1 1 1 error_writes
tick 1
create snap 0 128 snapshot base fl P 1
create snap 0 128 snapshot base fl P 64
save cow 0 2
tick 1
create snap 0 128 snapshot base fl P 1
remove snap
tick 1
create snap 0 128 snapshot base fl P 1
remove fl
load cow 1 1*05 7*00 1*01 503*00
create fl 0 64 flakey cow 0 1 1 1 error_writes
tick 1
create snap 0 128 snapshot base fl P 1
remove fl
load cow 0 1*53 1*6e 1*41 1*70 4*00 1*01 3*00 1*01 499*00
create fl 0 64 flakey cow 0 1 1 1 error_writes
tick 1
create snap 0 128 snapshot base fl P 1
