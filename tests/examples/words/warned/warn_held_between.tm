words 4; locks 2;
acquire 0; if me { release 0; } acquire 0; release 0;
acquire 1; release me; acquire 1; release 1; acquire 0; if me { release 0; } else { acquire 0; } release 0;