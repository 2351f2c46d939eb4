# The origin is flushed before a store is written: where that fails nothing is attached, and neither disk is written.
# That an attach flushes is this project's; what a layer does with it is dm-flakey's page.
disk base 128
disk cow 64
create fl 0 128 flakey base 0 1 1
create vol 0 128 snapshot-origin fl
tick 1
create snap 0 128 snapshot fl cow P 1
save cow 0 2
status vol
status snap
load cow 0 1*53 1*6e 1*41 1*70 1*01 3*00 1*01 3*00 1*01 499*00
load cow 1 1*05 7*00 1*02 23*00 1*09 7*00 1*03 471*00
create snap 0 128 snapshot fl cow P 1
save cow 1 1
tick 1
create snap 0 128 snapshot fl cow P 1
save cow 1 1
status snap
