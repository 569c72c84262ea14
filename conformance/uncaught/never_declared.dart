main() { print(b); }
