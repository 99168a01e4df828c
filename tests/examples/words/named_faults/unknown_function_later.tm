fn f(k) = g(k);
fn g(k) = k;
