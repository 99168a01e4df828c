shared s;
lock m, n[3];
acquire m; release m; acquire n[s]; release n[s % 3]; acquire n[2];
