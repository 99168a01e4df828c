words 1; locks 0; me = 1;
