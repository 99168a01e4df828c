shared a[3];
fn f(k) = a[k];
print f(7);
