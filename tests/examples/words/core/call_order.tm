shared a, b, c, d;
fn f(k, m) = c + k * d + m;
print f(a, b), f(b, f(a, a));
