nodes 2;
x = 1;
x = 1 / 0 + 1 / 0; print x / (1 - 1), x % 0;
