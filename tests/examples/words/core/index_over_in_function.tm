shared a[3], b[2][4];
lock m[2];
fn at(k) = a[k];
fn two(i, j) = b[i][j];
print at(2), at(3), two(1, 3), two(1, 4), two(me, 4), two(2, me);
