fn f(a, _b) = a;
