words 1; locks 2;
k = 1;
acquire k;
acquire k;
