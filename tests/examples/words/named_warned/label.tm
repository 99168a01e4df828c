shared a; #: word 0 b
#: nonsense
a = 1;
print a;
