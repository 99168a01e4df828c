words 4; locks 2;
acquire 0; if me { acquire 0; } acquire 1; acquire 0;
release 0; acquire 0; release 0; release 1;