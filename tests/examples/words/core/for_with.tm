shared n, s;
lock m[4];
for i in 0..n { with m[i] { for j in 0..n { s += n; } } }
