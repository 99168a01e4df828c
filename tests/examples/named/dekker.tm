# Each node says that it wants to enter, and enters if the other does not (the heart of Dekker's algorithm).
nodes 2;
shared wants[2], entered;

wants[me] = 1;
other = wants[1 - me];
if not other {
    entered += 1;
}
barrier;
print other, entered;
