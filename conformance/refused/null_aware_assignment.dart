main() { a ??= b; }
