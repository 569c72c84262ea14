// one
main() { print(1); }
