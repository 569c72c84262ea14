main() { print(r'''a'''); }
