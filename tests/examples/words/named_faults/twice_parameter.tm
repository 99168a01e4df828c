fn f(a,
 b,
 a) = 1;
