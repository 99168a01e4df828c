words 1; locks 0;
a = me + 2;
b = a - 5 * a;
