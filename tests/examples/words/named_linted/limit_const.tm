const A = 1 % 0;
