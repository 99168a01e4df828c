shared a, _;
