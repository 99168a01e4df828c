nodes 2;
for me in 0..2 { }
