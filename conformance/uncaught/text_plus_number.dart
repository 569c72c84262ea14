main() { print('a' + 1); }
