fn f(a) { print a; }
