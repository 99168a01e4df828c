shared a;
fn f(_a, _a) = 1;
