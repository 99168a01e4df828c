const A = 2;
fn twice(k) = 2 * k;
shared a[A + 1][twice(A)], b[twice(twice(A)) / 3];
lock m[A];
a[2][3] = 1; b[1] = 2;
acquire m[1];
