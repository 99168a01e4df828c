nodes 2;
x = 1;
if x = 1 { }
