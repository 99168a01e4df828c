fn f(k) = k + x;
x = 1;
