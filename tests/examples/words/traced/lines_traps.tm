words 1;
locks 1;
if me == 1 { x = 1 / 0; }
if me == 2 { [1] = 1; }
if me == 3 { acquire 1; }
if me == 4 {
  acquire 0;
  acquire 0;
}
if me == 5 { release 0; }
