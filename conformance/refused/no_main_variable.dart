var main = 1;
