words 4; locks 2;
while i < 3 { print i; i = i + 1; } print j; j = 2;