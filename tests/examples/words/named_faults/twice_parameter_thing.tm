const a = 1;
fn f(b,
 a) = b;
