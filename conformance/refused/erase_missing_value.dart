main() { x = ; }
