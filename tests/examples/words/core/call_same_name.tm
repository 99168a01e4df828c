fn f(x) = x + 1;
x = 2; y = 3;
print f(y) + x;
