nodes 2;
for i = 0; i < 3 { }
