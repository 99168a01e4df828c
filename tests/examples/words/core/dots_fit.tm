nodes 1;
n = 2;
for i in n..n*2 { print i; }
