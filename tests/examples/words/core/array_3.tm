const N = 4;
shared first[7], cube[2][3][N];
x = 1; y = 2; z = 3;
cube[x][y][z] = 1;
cube[1][y][3] = 2;
cube[x][2][0] = 3;
cube[1][2][3] = cube[0][0][0];
x = cube[x][1][z];
