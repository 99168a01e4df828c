words 3; locks 3;
acquire 0; [me] = me; release 0;
acquire 0; x = [(me + 1) % 3]; release 0;
acquire me; acquire (me + 1) % 3;
release me; release (me + 1) % 3;
