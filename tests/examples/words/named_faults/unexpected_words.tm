shared words;
