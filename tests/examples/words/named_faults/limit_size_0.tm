const N = 2;
shared a[
N - 2];
