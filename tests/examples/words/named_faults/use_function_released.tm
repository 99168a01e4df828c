fn f() = 1;
release f;
