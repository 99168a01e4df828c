nodes 2;
const A = 1;
const B = 2;
shared a, b[B], c;
lock m, n;
fn f(k) = a;
fn g(k) = k;
a = 1;
with m { print g(1); }
print a;
