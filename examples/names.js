let größe = 日本, $_;
