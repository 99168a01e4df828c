words 4; locks 2;
acquire 1; release 1; acquire 2; release (1 + 1); acquire me + 2; release me + 2;