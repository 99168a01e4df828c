nodes 2;
assert 0;
assert 2 < 1;
assert 1;
