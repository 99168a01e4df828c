nodes 1;
x = [0];
