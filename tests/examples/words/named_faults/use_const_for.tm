const A = 1;
for A in 0..2 { }
