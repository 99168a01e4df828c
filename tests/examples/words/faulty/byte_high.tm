words 4; locks 2;
größe = 1; # ä
