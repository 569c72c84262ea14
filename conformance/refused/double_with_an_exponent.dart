main() { print(1E+5); }
