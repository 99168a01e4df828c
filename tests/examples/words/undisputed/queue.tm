# Workers that take R items from a queue and work on each outside the lock.
words 20; locks 1;
go = 1;
while go {
  acquire 0;
  h = [0];
  if h < 6 {
    [0] = h + 1;
    release 0;
    y = [1 + h];
    [1 + h] = y + 1;
  } else {
    release 0;
    go = 0;
  }
}
