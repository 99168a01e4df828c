nodes 2;
for_ = 1;
for i in 1..3x { }
