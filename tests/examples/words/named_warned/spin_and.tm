nodes 2;
shared flag[2], turn, n;
fn busy(k) = flag[k] and turn == k;
other = 1 - me;
flag[me] = 1;
turn = other;
while flag[other] and turn == other { }
n += 1;
flag[me] = 0;
while busy(other) { x = x + 1; }
while not n { }
k = 0;
while flag[k] == 0 { k = 1 - k; }
while n == 0 or turn == 3 { barrier; }
while n { n -= 1; }
print n;
while flag[0] or turn { release_it = 1; }
while busy(release_it) { release_it = 0; }
