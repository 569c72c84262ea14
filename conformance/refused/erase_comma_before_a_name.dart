main() { f(, a: 1); }
