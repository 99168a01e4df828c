shared a[3];
lock m[2];
fn at(k) = a[k];
a[0] = 1;
print at(3), at(5);
print at(2);
