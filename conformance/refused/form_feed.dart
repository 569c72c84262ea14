main() {}
