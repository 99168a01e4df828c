words 1; locks 1;
if me == 0 { x = 1 / 0; }
if me == 1 { x = [1]; }
if me == 2 { acquire 1; }
if me == 3 { acquire 0; acquire 0; }
release 0;
