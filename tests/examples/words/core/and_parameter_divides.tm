fn both(a, b) = a and b;
x = 1; y = 0;
print both(y, x / y), both(x / y, y), both(x, y);
