nodes 2;
shared flag[2], turn, inside, count;
other = 1 - me;
for round in 0..1 {
    flag[me] = 1;
    turn = other;
    while flag[other] == 1 and turn == other { }
    inside += 1;
    assert inside == 1;
    count += 1;
    inside -= 1;
    flag[me] = 0;
}
barrier;
print count;
