fn f(a, b) = a * b - a / b;
x = 1; y = 2;
print f(x + 1, y - 1), f(x == 1, y), f(x * y, x % y);
