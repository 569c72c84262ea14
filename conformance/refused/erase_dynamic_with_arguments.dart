dynamic<int> x;
