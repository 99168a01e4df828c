words 65537; locks 0;
