# One node writes the one shared word, reads it back and prints it, then its own number and how many nodes there are.
words 1;
locks 0;
[0] = 7;
x = [0];
print x;
print me;
print nodes;
