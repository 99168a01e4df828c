words 4; locks 2;
release 1; acquire 0; release 0; release 0; release me; if me { release 1; }
acquire 1; release 1;