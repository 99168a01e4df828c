words 1;
locks 1;
if me == 0 { acquire 0; barrier; }
if me == 1 { x = 1 / 0; }
if me == 2 { acquire 0; barrier; }
