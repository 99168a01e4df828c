nodes 2;
x = me;
if x < 0 { }
for i in 0..0 { print i; }
while 0 > x { }
