main() { print(r'a
'); }
