shared a;
print nodes;
