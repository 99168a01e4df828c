lock m;
with m { }
