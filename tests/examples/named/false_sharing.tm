# Each node counts in a word of its own, and all these words stand on one page. Nothing is lost: changes are merged word by word.
nodes 4;
shared count[16];

for k in 0..3 {
    count[me] += me + 1;
    barrier;
}
print count[0], count[nodes - 1];
