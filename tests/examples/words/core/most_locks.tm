lock m[64];
acquire m[63];
acquire m[me];
