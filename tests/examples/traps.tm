# A statement that cannot be done traps, and its node does nothing more: here word 1 of a memory of one word, which is
# trap 2. Trap 1 is a division by zero, 3 a lock that is not there, 4 a lock that the node holds already, and 5 the release
# of one that it does not hold.
words 1;
locks 0;
print 6;
[me + 1] = 9;
print 7;
