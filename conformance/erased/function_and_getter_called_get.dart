int get(x) => 1; int get get => 2;
