lock m;
unlock m;
