words 8; locks 8; while k < 4 { l = (me * 3 + k) % 8; acquire l; x = [l]; [l] = x + me + 1; release l; s = s + x; k = k + 1; } print s;
