shared s;
fn square(k) = k * k;
print square(s), square(s + 1), square(square(s));
