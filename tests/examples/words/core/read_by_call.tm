shared a[3];
fn get(k) = a[k];
x = get(1);
x = get(x) + get(x + 1);
