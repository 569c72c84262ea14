main() { print('\u{110000}'); }
