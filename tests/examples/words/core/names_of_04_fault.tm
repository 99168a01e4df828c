words 4; locks 1;
x = [0] + 1;
