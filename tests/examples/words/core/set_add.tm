shared s, a[3];
x = 1; y = 2;
x += 3; x -= y + 1; x += s; x -= a[x] * 2;
s += 1; s -= x - 1; a[x] += a[x + 1]; a[s] -= s;
