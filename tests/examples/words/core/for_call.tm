const SIZE = 16;
fn first(k) = k * SIZE / nodes;
for i in first(me)..first(me + 1) { print i; }
