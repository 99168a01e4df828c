fn f() = 1;
x = f;
