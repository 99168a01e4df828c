words 4; locks 2;
if 0 < x < 4 { }