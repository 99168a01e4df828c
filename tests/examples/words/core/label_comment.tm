shared a[2], b;
#: word 0 zero
#: nothing
a[1] = b;
