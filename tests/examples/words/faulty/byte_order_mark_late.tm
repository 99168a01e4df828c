 ﻿words 4; locks 2;
