words 1;
locks 0;
if me { x = 1 / 0; }
