nodes 1;
for _i in 0..2 { }
