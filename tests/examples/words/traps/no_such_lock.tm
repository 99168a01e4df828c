words 1; locks 1; acquire 1;
