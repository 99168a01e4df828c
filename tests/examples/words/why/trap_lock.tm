words 1; locks 2;
k = 2;
acquire k;
