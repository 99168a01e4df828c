nodes 1;
print max(1, 2);
