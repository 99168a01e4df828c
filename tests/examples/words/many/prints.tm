words 1; locks 0; while x < 200 { print 1000 + x; x = x + 1; if x % 20 == 0 { barrier; } }
