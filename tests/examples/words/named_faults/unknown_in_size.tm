shared a[N];
const N = 2;
