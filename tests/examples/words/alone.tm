words 1; locks 0;
barrier;
x = 1;
