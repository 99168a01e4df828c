const N = 3;
lock m;
shared b[2], a[2 * N];
fn at(k) = a[k] + a[b[N]];
shared c[at(1)];
