words 1;
locks 4;
k = 3;
acquire k;
