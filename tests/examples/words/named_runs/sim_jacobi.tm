nodes 4;
const SIZE = 8;
shared grid[2][SIZE][SIZE], rounds;
lock mutex;
fn first(k) = 1 + k * (SIZE - 2) / nodes;

if me == 0 {
    for j in 0..SIZE { grid[0][0][j] = 1000; grid[1][0][j] = 1000; }
}
barrier;
old = 0;
for round in 0..4 {
    for i in first(me)..first(me + 1) {
        for j in 1..SIZE - 1 {
            grid[1 - old][i][j] = (grid[old][i - 1][j] + grid[old][i + 1][j] + grid[old][i][j - 1] + grid[old][i][j + 1]) / 4;
        }
    }
    barrier;
    old = 1 - old;
}
with mutex { rounds += 1; }
barrier;
assert rounds == nodes and grid[old][0][3] == 1000;
print rounds;
if me == 0 {
    for i in 0..SIZE { print grid[old][i][1], grid[old][i][4]; }
}
