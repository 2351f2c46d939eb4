disk disk 128
load disk 0 8192*11
load disk 16 4096*11 512*aa 3584*11
load disk 32 8192*11
load disk 48 8192*11
load disk 64 8192*11
load disk 80 8192*11
load disk 96 8192*11
load disk 112 8192*11
save disk 0 64
save disk 64 64
