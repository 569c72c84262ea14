main() { print(2 + 2); }
