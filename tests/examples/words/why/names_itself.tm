words 1;
locks 0;
k = 5;
k = k + 1;
