nodes 1;
barrier;
barrier ;
