fn f(a, b) = a * b + 1;
fn g(a) = f(a, a + 1) - a;
x = 2;
print g(x), g(g(1)), f(g(x), g(x + 1)), g(f(x, 3));
