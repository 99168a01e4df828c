shared n, a[4][4];
k = 2;
for i in 0..n { for j in i..k { a[i][j] = a[j][i] + n; } print n; }
print n;
