#: word 0 items
words 1; locks 1;
if me == 0 {
  i = 0;
  while i < 0 { acquire 0; n = [0]; [0] = n + 1; release 0; i = i + 1; }
} else {
  got = 0;
  while got == 0 {
    acquire 0;
    n = [0];
    if n > 0 { [0] = n - 1; got = 1; }
    release 0;
  }
  print me;
}
