main() {
  print('on');
  while (true) {}
}
