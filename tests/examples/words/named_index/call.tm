const N = 3;
fn next(k) = k + 1;
shared a[N + 1][N];
if me == 0 { a[next(N - 1)][next(next(1))] = 1; }
