words 1; locks 0;
d = me;
while 1 / d {
  d = 0;
}
