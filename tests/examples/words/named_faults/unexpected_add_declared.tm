const A += 1;
