main() {
  try {
    int x = 'a';
    print('b');
  } on TypeError catch (e) {
    print('c');
  }
  print('d');
}
