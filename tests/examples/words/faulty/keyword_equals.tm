words 4; locks 2;
print = 3;