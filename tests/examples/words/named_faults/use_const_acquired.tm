const A = 1;
acquire A;
