lock m[2];
m[0] = 1;
