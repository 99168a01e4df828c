# Each node adds 1 to a word that all share, under a lock; after the barrier each prints how many nodes there are.
nodes 4;
shared count;
lock mutex;

with mutex {
    count += 1;
}
barrier;
print count;
