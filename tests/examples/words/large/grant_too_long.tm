words 1; locks 17;
# As grant_longest.tm, but 26 of the intervals name a page, and the message would have 16,777,218 bytes.
if me == 0 {
  acquire 0;
  while x < 15420 {
    if x < 26 { [0] = x + 1; }
    acquire 16; release 16; acquire 16; release 16;
    acquire 16; release 16; acquire 16; release 16;
    acquire 16; release 16; acquire 16; release 16;
    acquire 16; release 16; acquire 16; release 16;
    x = x + 1;
  }
  release 0;
}
if me == 1 { acquire 0; y = [0]; print y; }
