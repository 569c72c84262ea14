main() {
  var l = <int>[1, 'a'];
  print(l.length);
}
