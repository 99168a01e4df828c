const f = 1;
fn f() = 1;
