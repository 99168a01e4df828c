const A = A + 1;
