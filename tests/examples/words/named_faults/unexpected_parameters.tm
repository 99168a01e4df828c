fn f(a,) = a;
