shared a;
a = me;
print a;
