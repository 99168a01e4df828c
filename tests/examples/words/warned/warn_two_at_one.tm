words 4; locks 2;
acquire 0; if me { while me { barrier; } }
while me { barrier; } release 0;