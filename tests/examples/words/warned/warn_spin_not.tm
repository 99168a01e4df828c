words 4; locks 2;
[0] = 1; [1] = 1;
f = 0; while f == 0 { acquire 0; f = [0]; release 0; }
f = 0; while f == 0 { f = [0]; if me { barrier; } else { barrier; } }
p = 1; while p { p = [p]; }
i = 0; f = 1; while f { f = [i]; i = i + 1; }
f = 0; while f < 5 { f = [0]; f = f + 1; }
f = 0; g = 0; while f + g < 5 { f = [0]; g = g + 1; }