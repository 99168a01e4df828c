shared a[3];
fn f() = a[7];
