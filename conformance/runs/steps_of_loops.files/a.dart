main() {
  for (var i = 0; i < 2; i++) {}
  while (true) { break; }
  do {} while (false);
  print('all');
}
