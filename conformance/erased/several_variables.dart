int a, b = 2; final num c = 1, d = 2;
