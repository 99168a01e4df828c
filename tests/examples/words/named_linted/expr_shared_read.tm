nodes 2;
x = [0];
