nodes 1;
x = 9; y = 2; z = 1;
print x - y - z, x - (y - z), x / y * z, x / (y * z), x % y % z, x - y + z, (x - y) * z, x * (y - z), x - y * z;
