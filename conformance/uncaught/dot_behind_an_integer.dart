main() { print(1.a); }
