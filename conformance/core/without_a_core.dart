main() { break; }
