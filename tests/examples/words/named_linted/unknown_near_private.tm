nodes 2;
total = 1;
print totl;
