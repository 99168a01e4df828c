words 0; locks 0;
