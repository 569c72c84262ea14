f(a, [b = 2]) => a;

main() {
  f(1);
  var g = (x) { return x; };
  g(3);
  h() {}
  h();
  print('all');
}
