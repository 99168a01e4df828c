# `next` is the next piece of work, `total` what all pieces came to. A lock guards both, so each piece is done once.
nodes 3;
const PIECES = 6;
shared next, total;
lock mutex;

mine = 0;
while mine < PIECES {
    with mutex {
        mine = next;
        next += 1;
        if mine < PIECES {
            total += mine * mine;
        }
    }
}
barrier;
print total;
