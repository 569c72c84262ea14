main() { print(a); var a = 1; }
