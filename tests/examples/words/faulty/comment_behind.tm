words 4; locks 2;
x = 1; /* one */ print x;