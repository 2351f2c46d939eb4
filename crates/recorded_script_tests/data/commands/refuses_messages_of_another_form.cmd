# Messages of another form.
# The grammar of lines is this project's.
message
message du
message du 0
message du enable
message Du 0 enable
message du 1 enable
message du 00 enable
message du 0 quiet
message du 0 Enable
message du 0 enable 1
message du 0 countbadblocks 1
message du 0 addbadblock
message du 0 addbadblock x
message du 0 addbadblock 1 2
message du 0 queryblock 4294967296
