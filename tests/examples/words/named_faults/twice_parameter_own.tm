fn f(f) = 1;
