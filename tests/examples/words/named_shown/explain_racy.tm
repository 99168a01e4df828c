nodes 2;
shared total, data[2][3];
lock mutex;
for i in 0..2 {
    total += i;
    with mutex { data[me][i] = total; }
}
barrier;
print total, data[1 - me][1];
