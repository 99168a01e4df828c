words 4; locks 2;
for i = 0; i < 3;