words 1; locks 1;
if me == 0 { while i < 124000 { acquire 0; release 0; i = i + 1; } }
barrier;
print me;
