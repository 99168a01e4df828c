const A = x;
x = 1;
