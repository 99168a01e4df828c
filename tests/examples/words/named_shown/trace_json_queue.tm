nodes 3;
const ROOM = 2;
const ITEMS = 4;
shared ring[ROOM], head, tail, sum[3];
lock queue;

if me == 0 {
    made = 0;
    while made < ITEMS {
        with queue {
            if tail - head < ROOM {
                ring[tail % ROOM] = made * made;
                tail += 1;
                made += 1;
            }
        }
    }
} else {
    done = 0;
    while not done {
        with queue {
            if head < tail {
                sum[me] += ring[head % ROOM];
                head += 1;
            } else if head == ITEMS {
                done = 1;
            }
        }
    }
}
barrier;
print sum[1] + sum[2];
assert sum[1] + sum[2] == 14;
