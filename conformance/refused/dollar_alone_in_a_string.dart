main() { print('a$ b'); }
