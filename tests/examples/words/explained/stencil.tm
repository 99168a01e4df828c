# each node owns 4 words; the second barrier is missing
words 64;
locks 0;
while r < 3 {
  i = 0;
  while i < 4 {
    a = [(me * 4 + i + nodes * 4 - 1) % (nodes * 4)];
    b = [(me * 4 + i + 1) % (nodes * 4)];
    s = s + a + b;
    i = i + 1;
  }
  i = 0;
  while i < 4 {
    [me * 4 + i] = s + i;
    i = i + 1;
  }
  barrier;
  r = r + 1;
}
