fn f(a) = a;
x = f(1, 2);
