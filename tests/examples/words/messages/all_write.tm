words 1; locks 0; [0] = me; [0] = me;
