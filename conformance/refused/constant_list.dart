main() { print(const [1]); }
