words 4; locks 2;
#: lock 0 mutex
acquire 1; acquire 0; barrier; release 0; barrier; if me { release 1; } barrier;