main() {
  int x = 'a';
  print('b');
}
