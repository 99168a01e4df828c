const N = 3;
fn next(k) = k + 1;
shared a[N];
a[next(N - 1)] = 1;
