shared a[4], b[4][4], p;
a[p] = 1;
x = b[a[0]][a[p]];
b[p][1] += a[a[p]];
