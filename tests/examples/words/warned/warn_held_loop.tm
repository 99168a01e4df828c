words 4; locks 2;
acquire 0; acquire 1;
while me < 2 { acquire 0; acquire 1; release 1; }
release 0; release 1;