shared a,

