const BIG = 0 - 1;
print BIG, BIG + 1, BIG * BIG, BIG / 2;
