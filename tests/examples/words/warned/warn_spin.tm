words 4; locks 2;
[0] = 1; [1] = 1;
f = 0; while f == 0 { f = [0]; }
n = 0; f = 0; while f == 0 { f = [me]; n = n + 1; if n { f = [1]; } } print n;