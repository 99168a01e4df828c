shared s;
fn f() = s;
fn g() = f();
lock m[g()];
