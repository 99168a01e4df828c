shared n, a[4];
k = 3;
for i in 0..k { k += 1; }
for i in n..n + 1 { print a[i]; }
for i in 0..i { print i; }
