words 1;
locks 1;
if me == 0 { acquire 0; }
barrier;
if me == 1 { acquire 0; }
print me;
