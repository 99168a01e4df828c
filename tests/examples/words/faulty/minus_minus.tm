words 4; locks 2;
x--;