f(a, b, a) {}

main() {}
