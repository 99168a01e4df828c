shared a;
print b;
