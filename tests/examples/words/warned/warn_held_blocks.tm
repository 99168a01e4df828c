words 4; locks 2;
if me { acquire 0; } acquire 0; release 0; #: lock 0 m
if nodes { acquire 0; acquire 0; } release 0;