words 4; locks 2;
x = 1; while x == 1 { y = x; print y; barrier; }
while me == 0 { acquire 0; release 0; } while 1 { } while nodes { } while x { x = 0; } while 0 { x = 1; }
while 1 / (1 - 1) { }