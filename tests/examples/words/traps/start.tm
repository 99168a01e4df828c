words 1; locks 0;
if me == 1 { x = 1 / 0; }
print me;
