main() { print(0x10); }
