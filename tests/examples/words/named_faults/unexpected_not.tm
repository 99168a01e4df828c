nodes 1;
x = 1;
y = 1 + not x;
