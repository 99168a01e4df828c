shared s, t;
lock m;
acquire m;
while s == 0 and t == 0 { release m; acquire m; }
while s == 0 or t == 0 { release m; }
while not s { with m { x = s; } }
while not t { if x { for i in 0..3 { barrier; } } }
release m;
print x;
