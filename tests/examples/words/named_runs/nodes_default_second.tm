shared a;
lock m;
nodes 3;
with m { a += 1; print a; }
