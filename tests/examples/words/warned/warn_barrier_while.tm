words 4; locks 2;
i = 0; while i < me { i = i + 1; if i { barrier; } }
i = 0; while i < nodes { i = i + 1; barrier; }
i = 0; while i < me { i = i + 1; }