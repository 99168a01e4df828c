words 1; locks 0;
x = $;