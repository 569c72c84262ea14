main() { print(1); }
