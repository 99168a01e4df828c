nodes 1;
shared grid[2][2];
x = 1;
x = 2;
grid[x][0] = 1;
