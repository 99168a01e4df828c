words 1; locks 1; acquire 0; acquire 0;
