words 1; locks 1;
barrier;
while me == 0 { acquire 0; x = [0]; [0] = 1 - x; release 0; }
