words 1; locks 0;
[0] = me; x = [0]; y = 1 / x;
