f(int x) { a: switch (x) { case 1: int y = 2; break a; default: } }
