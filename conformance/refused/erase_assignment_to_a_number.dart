main() { 1++; }
