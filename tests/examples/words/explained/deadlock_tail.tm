words 1;
locks 3;
if me > 0 { acquire me; }
barrier;
if me == 0 { acquire 1; }
if me == 1 { acquire 2; }
if me == 2 { acquire 1; }
