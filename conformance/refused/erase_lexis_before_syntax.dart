main() { x = ; 'a }
