# sums by a tree: node me adds its partner's word in each round
words 4; locks 0;
[me] = me + 1;
barrier;
d = 1;
while d < nodes {
  if me % (2 * d) == 0 {
    if me + d < nodes {
      x = [me]; y = [me + d];
      [me] = x + y;
    }
  }
  d = 2 * d;
  barrier;
}
if me == 0 { s = [0]; print s; }
