main() { print('a'); }
