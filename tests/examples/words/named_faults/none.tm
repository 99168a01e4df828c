nodes 2;
shared a;
a = 1;
