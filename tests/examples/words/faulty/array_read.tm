words 4; locks 2;
x = a[0];