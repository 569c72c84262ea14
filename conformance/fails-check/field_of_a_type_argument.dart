class Box<T> {
  T v;
}

main() {
  var b = new Box<int>();
  dynamic s = 'a';
  b.v = s;
  print('ok');
}
