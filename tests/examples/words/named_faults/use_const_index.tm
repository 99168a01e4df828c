const A = 1;
x = A[0];
