main() { print((1 << 126) * 2); }
