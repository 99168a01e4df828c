const A = 0 and 1 / 0;
print A;
