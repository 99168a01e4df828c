words 4; locks 2;
#: lock 1 m
if me { acquire 1; } else { acquire 1; }
acquire 0; release 0;