words 3; locks 1;
while t < 2 { acquire 0; x = [0]; [0] = x + 1; release 0; barrier; t = t + 1; }
if me == 1 { [1] = 1; }
if me == 0 { y = [1]; print y; }
