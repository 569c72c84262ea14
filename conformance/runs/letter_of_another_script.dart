main() { print('é'); }
