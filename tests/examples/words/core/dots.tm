nodes 1;
for i in 1..3 { print i; }
for i in 0..0x; { }
