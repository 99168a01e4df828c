words 9;
locks 0;
b = 2;
a = b + 1;
[a * b] = b;
[c + a] = b;
