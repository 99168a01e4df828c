shared s, a[3];
lock n[3];
x = 1;
with n[x] { x = 2; s += a[0]; }
with n[s] { s = 1; }
with n[x] { with n[x + 1] { with n[a[x]] { print a[0] + a[1]; } } print s; }
print s;
