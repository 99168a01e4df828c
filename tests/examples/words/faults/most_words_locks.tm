words 65536; locks 64;
