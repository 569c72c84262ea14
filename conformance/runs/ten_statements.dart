main() {
  var a = 1;
  int b = a + 2;
  String c = 'text';
  dynamic d = c;
  print(a + b);
  print(c);
  print(d);
  var e = b + b + 36;
  print(e);
  print('end');
}
