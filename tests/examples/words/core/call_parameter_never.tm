shared s;
fn none(k) = 7;
print none(s), none(s / 0), none(1 / 0) + me;
