# Jacobi's method on a grid of 6 by 6 words: each round makes a new grid of the means of the old one. A barrier is missing between
# the rounds, so a node may read a row that its neighbour has not written yet.
nodes 4;
const SIZE = 6;
shared grid[2][SIZE][SIZE];
fn first(k) = 1 + k * (SIZE - 2) / nodes;  # the first row of node k

if me == 0 {
    for j in 0..SIZE {                     # the hot row at the top
        grid[0][0][j] = 1000;
        grid[1][0][j] = 1000;
    }
}
barrier;
old = 0;
for round in 0..2 {
    for i in first(me)..first(me + 1) {
        for j in 1..SIZE - 1 {
            above = grid[old][i - 1][j];
            below = grid[old][i + 1][j];
            left = grid[old][i][j - 1];
            right = grid[old][i][j + 1];
            grid[1 - old][i][j] = (above + below + left + right) / 4;
        }
    }
    old = 1 - old;                         # the barrier belongs here
}
