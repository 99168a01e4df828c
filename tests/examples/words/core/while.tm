nodes 1;
x = 0;
while x < 3 { x += 1; }
while 0 { }
