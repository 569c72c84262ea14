main() { var if = 1; }
