words 1; locks 0;
while i < 2 + me { barrier; i = i + 1; }
