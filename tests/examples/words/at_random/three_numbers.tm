words 1;
locks 0;
x = 1;
x = 1;
