words 2; locks 0;
if me == 0 { [0] = 1; [1] = 1; }
if me == 1 { y = [1]; x = [0]; print y; print x; }
