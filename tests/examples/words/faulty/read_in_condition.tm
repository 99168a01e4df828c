words 4; locks 2;
while [0] == 0 { }