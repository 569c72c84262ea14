main() { x = (q) => y is a < b; }
