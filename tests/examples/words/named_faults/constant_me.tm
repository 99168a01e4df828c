const A = 1 +
me;
