# one producer, one consumer, a word under a lock; bounded looking
words 2; locks 1;
if me == 0 {
  while k < 2 {
    acquire 0; [0] = 7 + k; [1] = 1; release 0;
    k = k + 1;
  }
} else {
  while k < 3 {
    acquire 0; f = [1]; if f { x = [0]; [1] = 0; } release 0;
    k = k + 1;
  }
  print x;
}
