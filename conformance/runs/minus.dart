main() { print(2 - 1); }
