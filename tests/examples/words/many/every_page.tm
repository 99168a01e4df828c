words 65536; locks 0; while x < 1024 { [x * 64 + me] = x; x = x + 1; } barrier; x = 0;
    while x < 1024 { y = [x * 64 + 1 - me]; z = z + y; x = x + 1; } print z;
