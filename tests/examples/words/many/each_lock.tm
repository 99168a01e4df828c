words 8; locks 64; while x < 8 { acquire 56 + x; y = [x]; [x] = y + me; release 56 + x; x = x + 1; } barrier; x = 0;
    while x < 8 { y = [x]; z = z + y; x = x + 1; } print z;
