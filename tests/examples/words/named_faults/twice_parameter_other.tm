fn f(a) = a;
fn g(a) = a;
shared a;
print f(g(a));
