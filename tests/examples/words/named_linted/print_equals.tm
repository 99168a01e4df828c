nodes 2;
print me == 1 = 2;
