words 2; locks 1; if me == 0 { acquire 0; while i < 12 { i = i + 1; } [0] = i; release 0; [1] = 5; } else { acquire 0; x = [0]; [0] = x + 1; release 0; print x; }
