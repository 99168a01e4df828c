#: lock 1 second
words 1; locks 2;
[0] = me;
acquire me; acquire 1 - me;
release me; release 1 - me;
