nodes 2;
const CITIES = 3;
shared dist[CITIES][CITIES], best, next;
lock bound, work;
fn length(a, b) = dist[0][a] + dist[a][b] + dist[b][0];

if me == 0 {
    for i in 0..CITIES { for j in 0..CITIES { dist[i][j] = (i + 1) * (j + 2) % 7; } }
    best = 1000;
}
barrier;
go = 1;
while go {
    with work { task = next; next += 1; }
    if task >= CITIES - 1 {
        go = 0;
    } else {
        a = task + 1;
        b = CITIES - a;
        found = length(a, b);
        with bound { if found < best { best = found; } }
    }
}
barrier;
print best;
