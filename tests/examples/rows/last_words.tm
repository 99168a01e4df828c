words 65536; locks 0; if me == 0 { [65535] = 1; } else { [65280] = 2; } barrier; x = [65535]; y = [65280]; print x; print y;
