class P<T extends num> {}

main() {
  new P<String>();
  print('p');
}
