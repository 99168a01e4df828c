words 4; locks 2;
[0] += 1;