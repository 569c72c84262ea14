main() { a?.b; }
