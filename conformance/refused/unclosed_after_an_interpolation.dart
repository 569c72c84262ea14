main() { print('${1}ab
'); }
