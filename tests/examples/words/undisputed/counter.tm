# A counter under a lock, R rounds.
words 1; locks 1;
i = 0;
while i < 2 {
  acquire 0;
  x = [0];
  [0] = x + 1;
  release 0;
  i = i + 1;
}
