shared grid[2][8];
grid[1][8] = 1;
