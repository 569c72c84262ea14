f() {
  throw
    'over\ntwo lines';
}

main() {
  print('before');
  f();
}
