half(int n) {
  return n ~/ 2;
}

main() {
  print(half(4));
  print(half('a'));
}
