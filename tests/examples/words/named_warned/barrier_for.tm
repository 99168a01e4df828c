nodes 2;
for i in 0..me { print i; barrier; }
for i in me..2 { barrier; }
