# Node 0 fills a buffer, the others read it, three times over; a barrier before and after each filling.
nodes 3;
shared buffer[2];

for k in 0..3 {
    if me == 0 {
        buffer[0] = k * 10;
        buffer[1] = k * 10 + 1;
    }
    barrier;
    if me > 0 {
        print buffer[0] + buffer[1];
    }
    barrier;
}
