# Reads and writes whose sectors or data are of another form.
# The grammar of lines is this project's.
read vol 0
read vol 0 0 0
read Vol 0 0
read vol x 0
save d 0 2049 2049
write vol 0
write vol 0 511*aa
write vol 0 512*AA
write vol 0 512*a
write vol 0 512aa
write vol 0 0*aa
write vol 0 1048577*00
write vol 0 512*aa x
write vol 0 1048576*00 1048576*00 1*00
load Disk 0 1048576*00 1048576*00
