words 1; locks 17;
# Node 1 waits for lock 0, and is granted it with all 246,722 intervals that node 0 has closed: one as it acquires lock 0, two for
# each of the 123,360 pairs of lock 16, and one as it releases lock 0. On 16 nodes each is 68 bytes, and 25 of them name a page of
# 2 bytes. With 1 byte for the lock, 65 for the time and 4 for the count the message has 16,777,216 bytes, the most.
if me == 0 {
  acquire 0;
  while x < 15420 {
    if x < 25 { [0] = x + 1; }
    acquire 16; release 16; acquire 16; release 16;
    acquire 16; release 16; acquire 16; release 16;
    acquire 16; release 16; acquire 16; release 16;
    acquire 16; release 16; acquire 16; release 16;
    x = x + 1;
  }
  release 0;
}
if me == 1 { acquire 0; y = [0]; print y; }
