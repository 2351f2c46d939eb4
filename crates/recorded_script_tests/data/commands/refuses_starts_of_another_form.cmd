# Lines of `start` of another form.
# The grammar of lines is this project's.
start
start vol
start vol read
start vol read 0
start vol read 0 0 0
start Vol read 0 0
start vol Read 0 1
start read vol 0 1
start vol save 0 1
start vol read x 0
start vol write
start vol write 0
start vol write 0 511*aa
start vol write 0 512*aa x
start vol write x 1048576*00 512*00
