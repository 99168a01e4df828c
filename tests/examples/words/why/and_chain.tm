#: word 0 message
#: lock 0 first
#: lock 1 second
words 2; locks 2;
if me == 0 { acquire 0; [0] = 7; release 0; }
if me == 1 { while x == 0 { acquire 0; x = [0]; release 0; } acquire 1; [1] = x; release 1; }
if me == 2 { while y == 0 { acquire 1; y = [1]; release 1; } z = [0]; [0] = z + 1; print z; }
