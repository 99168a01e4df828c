const A = 2;
fn f(k) = k * k + A;
x = A + 1 + f(3);
print 1 + 2 + x, x + 1 + 2, (1 + 2) * x, x * (1 + 2), not 0, not A, 3 < A, 5 % 3 == A;
