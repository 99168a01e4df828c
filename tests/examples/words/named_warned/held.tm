lock m, n[2];
with m { acquire m; }
acquire n[1]; acquire n[1];
release n[0];
barrier;
