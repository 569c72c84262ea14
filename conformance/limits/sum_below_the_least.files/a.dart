main() { print((-1 << 127) + -1); }
