const Z = 0;
shared g[3][4];
x = 1;
g[Z][x] = 1; g[Z + 2][x] = 2; g[x][2 - Z] = 3;
