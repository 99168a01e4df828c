fn a(k) = k + k;
fn b(k) = a(k) + a(k);
fn c(k) = b(k) + b(k);
fn d(k) = c(k) + c(k);
fn e(k) = d(k) + d(k);
fn f(k) = e(k) + e(k);
fn g(k) = f(k) + f(k);
fn h(k) = g(k) + g(k);
