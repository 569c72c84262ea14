main() { var a, a; }
