nodes 16;
print me;
