fn one(k) = 1;
fn inc(k) = k + 1;
print one(me), one(me) + 2, inc(1) + inc(me), inc(inc(1));
