shared a[];
