words 1; locks 0;
x = [0];
[0] = x + 1;
y = 1 / x;
