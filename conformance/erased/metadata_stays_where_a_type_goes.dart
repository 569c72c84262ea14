f(@d int x) { final String y = x; for (int i in y) i; }
