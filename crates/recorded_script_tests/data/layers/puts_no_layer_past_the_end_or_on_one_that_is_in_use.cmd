# What is refused of a layer, in order.
# By the admin-guide pages on dm-flakey and dm-dust.
disk d 8
create f 0 8 flakey d 0 2 1
disk e 8
create g 0 8 flakey e 1 1 1
create f 0 8 error
create g 0 8 dust d 0 512
create g 0 8 dust x 0 512
create g 0 7 flakey e 1 1 1
