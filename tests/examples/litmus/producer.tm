# Node 0 fills a buffer, the others read it, three times over; a barrier before and after each filling.
words 4;  #: words 0 1 buffer
locks 0;
while k < 3 {
    if me == 0 {
        [0] = k * 10;
        [1] = k * 10 + 1;
    }
    barrier;
    if me > 0 {
        x = [0];
        y = [1];
        print x + y;
    }
    barrier;
    k = k + 1;
}
