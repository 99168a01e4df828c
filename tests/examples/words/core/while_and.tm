shared flag[2], turn;
other = 1 - me;
flag[me] = 1;
turn = other;
while flag[other] == 1 and turn == other { }
