words 4
locks 1;