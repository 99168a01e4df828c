shared a[4];
fn f(x) = 3;
fn g(x, y) = x and y;
const C = f(1 / 0);
a[f(1 / 0)] = C;
x = g(0, 1 / 0);
print g(1, 1 / 0), g(x, 1 / 0);
