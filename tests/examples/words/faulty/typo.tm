words 4; locks 2;
aquire 0;