# A command moves 1 to 2048 sectors, and a request that is started too; that is looked at before the device.
# The grammar of lines is this project's.
read nosuch 0 0
read vol 0 2049
save d 0 4294967295
start nosuch read 0 0
start vol read 0 2049
start vol write 0 1048576*00 512*00
write nosuch 0 1048576*00 1048576*00
load d 0 1048576*00 512*00
