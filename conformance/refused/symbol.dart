main() { print(#a); }
