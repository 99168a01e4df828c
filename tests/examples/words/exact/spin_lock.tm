words 2; locks 1;
if me == 0 { [1] = 42; acquire 0; [0] = 1; release 0; }
if me == 1 { while x == 0 { acquire 0; x = [0]; release 0; } y = [1]; print y; }
