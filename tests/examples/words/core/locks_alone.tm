lock m;
acquire m;
release m;
