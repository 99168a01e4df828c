words 1; locks 1;
acquire 0;
while 1 { }
