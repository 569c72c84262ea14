main() { print(1 +); }
