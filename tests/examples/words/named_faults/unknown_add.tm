nodes 1;
x += 1;
