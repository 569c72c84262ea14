main() { var a = a; }
