nodes 2;
shared grid[2][4], old, done, limit;
lock m[2];
if me == 0 { limit = 3; grid[1][2] = 250; old = 1; done = 2; }
barrier;
x = 3;
if grid[old][x - 1] > 200 and done or grid[0][0] == 7 {
    x += grid[old][
        x - 1   # a comment
    ];
}
for i in 0..limit + 1 { print i; }
with m[x % 2] { y = grid[old][0] + grid[1][x % 4] + grid[1][0] + grid[1][1] + grid[1][1] and done or (done and x); }
assert x == 1 or grid[0][1];
