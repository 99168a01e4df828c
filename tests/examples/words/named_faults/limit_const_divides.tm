const A =
1 / (2 - 2);
