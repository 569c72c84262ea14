main() { x = ; async; }
