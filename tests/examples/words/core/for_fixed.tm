const N = 3;
for i in 0..N { print i; }
for i in me..nodes { }
for i in me * 2..(me + 1) * 2 { print i; }
