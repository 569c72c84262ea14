main() { x = (q) => ++f(); }
