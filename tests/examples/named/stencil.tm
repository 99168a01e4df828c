# Each node owns the cell me + 1 and replaces it by the sum of its two neighbours, twice. The barrier between reading and writing is missing.
nodes 4;
shared cell[18];

cell[me + 1] = me + 1;
barrier;
for k in 0..2 {
    cell[me + 1] = cell[me] + cell[me + 2];
    barrier;
}
print cell[me + 1];
