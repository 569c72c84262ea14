main() {
  int a = 2;
  var b = a + 40;
  print('x');
  print(b + a);
}
