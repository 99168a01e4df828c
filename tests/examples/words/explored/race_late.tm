words 1;
locks 0;
while i < 50 { i = i + 1; }
[0] = me;
