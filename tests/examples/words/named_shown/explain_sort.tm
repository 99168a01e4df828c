nodes 3;
const KEYS = 12;
const RANGE = 4;
shared keys[KEYS], bucket[RANGE], sorted[KEYS];
lock m[RANGE];
fn low(k) = k * KEYS / nodes;

for i in low(me)..low(me + 1) { keys[i] = (i * 7 + 3) % RANGE; }
for i in low(me)..low(me + 1) {
    k = keys[i];
    with m[k] { bucket[k] += 1; }
}
barrier;
if me == 0 {
    at = 0;
    for k in 0..RANGE {
        for t in 0..bucket[k] { sorted[at] = k; at += 1; }
    }
    assert at == KEYS;
}
barrier;
for i in low(me)..low(me + 1) { print sorted[i]; }
for i in 1..KEYS { assert sorted[i - 1] <= sorted[i]; }
