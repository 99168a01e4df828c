words 1;

locks 65;