words 4096; locks 64; if me == 0 { acquire 63; [4095] = 18446744073709551615; release 63; } barrier; acquire 63; x = [4095]; release 63; print x;
