shared s;
lock m;
with (m) { s += 1; }
