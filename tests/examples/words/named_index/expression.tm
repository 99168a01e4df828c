const N = 4;
lock m[N];
with m[(N * 2 - 1)] { }
