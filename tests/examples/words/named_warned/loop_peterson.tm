nodes 2;
shared flag[2], turn, count;
other = 1 - me;
flag[me] = 1;
turn = other;
while flag[other] == 1 and turn == other { }
count += 1;
flag[me] = 0;
assert count < 3;
