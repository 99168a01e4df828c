words 2; locks 1;
lock(0);
[0] = 1;
unlock(0);
