words 1; locks 0;
while x < 5 { if me == 0 { [0] = x + 1; } barrier; x = [0]; }
print x;
