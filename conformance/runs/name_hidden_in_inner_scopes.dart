var a = 'library';

f(a) {
  print(a);
  var a = 'body';
  print(a);
  { var a = 'block'; print(a); }
  print(a);
}

main() {
  f('parameter');
  print(a);
}
