main() { print('${1}'); }
