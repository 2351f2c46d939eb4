disk disk 200
load disk 0 1*53 1*6e 1*41 1*70 1*01 3*00 1*01 3*00 1*08 4083*00 1*03 7*00 1*02 4087*00
load disk 16 4096*11 4096*00
save disk 0 64
save disk 64 64
save disk 128 64
save disk 192 8
