# Only dust layers take messages; which refusal comes first; the most seconds of a tick.
# The grammar of lines is this project's.
tick 1
tick 4294967295
tick 4294967296
disk base 128
create vol 0 128 snapshot-origin base
message base 0 enable
message vol 0 addbadblock 2
message nosuch 0 addbadblock 2
message nosuch 0 quiet
message nosuch 1 enable
