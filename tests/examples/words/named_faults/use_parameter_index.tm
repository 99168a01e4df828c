fn f(a) = a[0];
