shared a[16];
a[me] = nodes;
a[nodes - 1 - me] = 1;
x = a[(me + 1) % nodes];
