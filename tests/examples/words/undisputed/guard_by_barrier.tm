words 3; locks 0;
r = 0;
while r < 3 {
  if me == r { x = [0]; [0] = x + 1; [1] = x; }
  barrier;
  r = r + 1;
}
y = [0];
print y;
