words 1; locks 1; acquire 0; [0] = 3; release 0; acquire 0; x = [0]; release 0; print x + nodes;
