lock m[2];
with m[2] { }
