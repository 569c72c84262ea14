main() { get x; }
