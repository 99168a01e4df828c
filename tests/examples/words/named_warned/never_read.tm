nodes 2;
x = 1;
for i in 0..2 { y = i; }
