const A = 3x;
