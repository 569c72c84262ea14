main() { print('\xZ1'); }
