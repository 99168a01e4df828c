fn f() = 1;
f();
