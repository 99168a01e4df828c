shared a, b;
shared c;
lock m, n;
lock o;
a = 1; b = 2; c = 3;
acquire m; acquire n; acquire o;
