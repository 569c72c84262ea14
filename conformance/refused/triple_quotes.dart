main() { print('''a'''); }
